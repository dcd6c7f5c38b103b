/* A memory as hex digits, and the steps that wrote it. */
#ifndef HEX_H
#define HEX_H

#include "files.h"

/* Prints bytes on standard output as xxd does. */
void print_hex(const struct bytes *bytes);

/* Prints which step of a sheet wrote which bytes of a memory last; the sheet is accepted for it. */
void print_writers(const uint8_t *sheet, size_t sheet_len, size_t memory_len);

#endif
