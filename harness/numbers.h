/* Numbers as people write them: decimal, or hex behind 0x. */
#ifndef NUMBERS_H
#define NUMBERS_H

#include <stdbool.h>
#include <stddef.h>
#include <stdint.h>

/* Reads `len` characters as a number; false if they are none or past 64 bits. */
bool parse_number(const char *text, size_t len, uint64_t *number);

/* The same, of a step or an element: past 32 bits it is none. */
bool parse_index(const char *text, size_t len, uint32_t *index);

/* Reads two hex digits. */
bool parse_hex_byte(const char *text, uint8_t *byte);

#endif
