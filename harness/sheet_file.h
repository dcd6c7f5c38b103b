/* A sheet from a file that has its bytes or its text form. Each function says on standard error what went
 * wrong. */
#ifndef SHEET_FILE_H
#define SHEET_FILE_H

#include <stdbool.h>

#include "asm.h"
#include "files.h"

/* Reads a sheet from a file, whichever of the two it has: of bytes as many as can change the answer. */
bool read_sheet(const char *name, struct bytes *sheet);

/* The same of a file's bytes, in their place; if it fails, they are freed. */
bool take_sheet(const char *name, struct bytes *file);

/* Makes a sheet of a text from a file; to be freed with free_assembly in any case. */
bool assemble_file(const char *name, const struct bytes *text, struct assembly *assembly);

#endif
