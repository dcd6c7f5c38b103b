/* A sheet in its text form, which asm.h takes. */
#ifndef SHEET_TEXT_H
#define SHEET_TEXT_H

#include <stdio.h>

#include "refusals.h"

/* Prints a sheet that the library has read or refused to read. Of a refused one the fields before
 * the refused one are lines of text, the others bytes as they are, and the text allows it. */
void print_sheet_text(FILE *file, const struct refused *sheet);

/* How many bytes the fields have that the library has read. */
size_t readable_bytes(const struct refused *sheet);

#endif
