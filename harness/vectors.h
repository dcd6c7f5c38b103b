/* A vector step: what its input must be, and where the elements of its matrix and its bias lie; for
 * diagnoses. The library decides; this tells the numbers on the way, which it does not. */
#ifndef VECTORS_H
#define VECTORS_H

#include <stdbool.h>
#include <stddef.h>
#include <stdint.h>

#include "fields.h"

struct vector {
    uint32_t input;          /* a register */
    uint32_t interpretation; /* of the input */
    uint32_t matrix_kind;
    unsigned rows;    /* M */
    unsigned columns; /* K */
    bool is_column_major;
    uint64_t stride;
    uint64_t matrix_offset;
    bool has_bias;
    uint64_t bias_offset;
};

/* A vector step of the numbers of its field. */
struct vector vector_of(const struct values *values);

/* The rows that the input must have. It has one column. */
unsigned input_rows(const struct vector *vector);

/* Element row * K + column of the matrix, or M * K + i of the bias. */
struct operand {
    unsigned element;
    uint64_t byte;
    unsigned size;
};

/* Finds the first element whose bytes do not all lie in a memory. */
bool find_outside_operand(const struct vector *vector, size_t memory_len, struct operand *operand);

#endif
