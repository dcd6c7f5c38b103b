/* Element kinds in words and values. */
#ifndef KINDS_H
#define KINDS_H

#include <stdbool.h>
#include <stdint.h>

/* The name of a kind, as "u8"; NULL if there is none. */
const char *kind_name(uint32_t kind);

/* Bits of an element; 32 for an unknown kind. */
unsigned kind_bits(uint32_t kind);

/* What an element's raw bits stand for. */
int64_t element_value(uint32_t kind, uint32_t bits);

/* The lowest number that an element can stand for. */
int64_t element_low(uint32_t kind);

/* The name of what a vector step takes its input for: a kind's, or as "packed-u8"; NULL if there is
 * none. */
const char *interpretation_name(uint32_t interpretation);

/* Whether four components are packed in a word. */
bool is_packed(uint32_t interpretation);

/* A number of some bits, the highest of which is its sign. */
int64_t with_sign(uint32_t bits, unsigned width);

#endif
