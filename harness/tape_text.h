/* Tapes as text: one record a line, six decimal numbers with single blanks. */
#ifndef TAPE_TEXT_H
#define TAPE_TEXT_H

#include <stdbool.h>
#include <stddef.h>
#include <stdint.h>

#include "files.h"
#include "json.h"
#include "moonbleat.h"

/* The numbers of a record. */
enum { RECORD_OP, RECORD_REGISTER, RECORD_FIRST, RECORD_COUNT, RECORD_BYTE, RECORD_STEP };
enum { RECORD_OBJECT = RECORD_FIRST, RECORD_BITS = RECORD_BYTE, RECORD_WHOLE_STEP = RECORD_REGISTER };

/* Room for one record more than any tape may have: the library refuses such a tape, whatever
 * follows. */
enum { TAPE_ROOM = MOONBLEAT_TAPE_NUMBERS + MOONBLEAT_RECORD_NUMBERS };

struct tape {
    int32_t numbers[TAPE_ROOM];
    size_t records;
};

/* Reads a tape from a file; says on standard error which line is no record. Blanks and tabs may
 * be repeated and stand at a line's end. */
bool read_tape(const char *name, struct tape *tape);

/* The same of a file's bytes. */
bool take_tape(const char *name, const struct bytes *file, struct tape *tape);

/* Prints records on standard output. */
void print_tape(const int32_t *numbers, size_t records);

/* The records as an array of arrays. */
void json_records(struct json *json, const int32_t *numbers, size_t records);

#endif
