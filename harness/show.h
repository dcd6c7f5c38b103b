/* A sheet in words. */
#ifndef SHOW_H
#define SHOW_H

#include <stddef.h>
#include <stdint.h>
#include <stdio.h>

#include "fields.h"

/* Prints a field, which has a number among those of its rank. */
void show_field(FILE *file, const struct field *field, unsigned number);

/* Prints the fields of a sheet that the library reads. */
void show_sheet(FILE *file, const uint8_t *sheet, size_t sheet_len);

/* Prints a refused sheet as far as it makes sense; behind the field at byte `refused` stands a mark
 * with a sentence. */
void show_refused_sheet(FILE *file, const uint8_t *sheet, size_t sheet_len, size_t refused, const char *sentence);

#endif
