/* The numbers of a line of the text form. */
#ifndef ASM_NUMBERS_H
#define ASM_NUMBERS_H

#include "asm_line.h"
#include "fields.h"
#include "judge.h"

enum { PART_BYTES = 10 * DIMENSIONS_MAX }; /* of the longest part, a layout's dimensions */

/* The numbers of a part so far. */
struct part {
    uint8_t bytes[PART_BYTES];
    size_t len;
    unsigned times;
};

/* Adds a little-endian number to a part. */
void put_number(struct part *part, uint32_t number, size_t width);

/* Takes the numbers of a part, once. What was read before them bounds those that name a layout or a
 * view; NULL: it is not known. */
void take_part(struct line *line, const struct reading *before, const struct part_form *form, struct part *part);

/* Considers the keywords of a part, from a number on. */
void consider_keywords(struct nearest *nearest, const struct part_form *part, size_t from);

/* Takes the numbers of a part that is repeated on one line. */
void take_list(struct line *line, const struct part_form *form, struct part *part);

#endif
