/* Files to read. Each function says on standard error what went wrong. */
#ifndef FILES_H
#define FILES_H

#include <stdbool.h>
#include <stddef.h>
#include <stdint.h>
#include <stdio.h>

#include "moonbleat.h"

/* Bytes of a file; `at` is to be freed and never NULL after a successful read. */
struct bytes {
    uint8_t *at;
    size_t len;
};

/* The name that stands for standard input or standard output. */
#define STANDARD_STREAM "-"

/* Opens a file to read, or standard input; NULL if that fails. */
FILE *open_input(const char *name);

/* Closes what open_input opened. */
void close_input(FILE *file);

/* Says what is wrong with a file: one line on standard error. */
void complain_of(const char *name, const char *format, ...) __attribute__((format(printf, 2, 3)));

/* Says that reading or writing a file failed, for the reason in errno. */
void complain(const char *name);

/* Reads the first `limit` bytes of a file, or all of it if it is shorter. */
bool read_file(const char *name, size_t limit, struct bytes *bytes);

/*
 * How much of a file is read. A longer memory is refused whatever it holds. A longer sheet is
 * refused at a field whose head lies no further than the longest accepted sheet reaches, and
 * whose content is at most 65,535 bytes; what follows cannot change the answer.
 */
#define MEMORY_LIMIT ((size_t)MOONBLEAT_MEMORY_MAX + 1)
#define SHEET_LIMIT ((size_t)MOONBLEAT_SHEET_MAX + 3 + UINT16_MAX)

/* Reads a memory: as much of it as can change the answer. */
bool read_memory(const char *name, struct bytes *memory);

#endif
