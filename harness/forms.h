/* What a file holds, told by its bytes where only one answer makes sense. */
#ifndef FORMS_H
#define FORMS_H

#include <stdbool.h>

#include "files.h"

enum form { FORM_SHEET, FORM_TRACE, FORM_TAPE, FORM_MASKS, FORMS };

/* A form by its name, FORMS if there is none of that name; and the name of a form. */
enum form find_form(const char *name);
const char *form_name(enum form form);

/* Whether a file is text: it begins with a printable character of ASCII, a blank, a line end or a
 * byte-order mark, and there is no other control character among its first three bytes. No sheet that is
 * read begins so: the third byte of its head, half of a length below 256, is 0. */
bool is_text(const struct bytes *file);

/*
 * The form of a file:
 *   - a tape is text that begins with a number;
 *   - a trace begins with the head of an access;
 *   - masks have their length, and the first step's are 0: all registers are empty before it, so that it
 *     cannot be a load or a store;
 *   - all else is a sheet or its text, if a refused one.
 */
enum form form_of(const struct bytes *file);

#endif
