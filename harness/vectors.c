#include "vectors.h"

#include <limits.h>

#include "kinds.h"
#include "moonbleat.h"

enum { PACKED_IN_A_WORD = 4 };

/* The numbers of a vector step's field, in their order. */
enum {
    RESULT_AT,
    RESULT_KIND_AT,
    INPUT_AT,
    INPUT_INTERPRETATION_AT,
    MATRIX_INTERPRETATION_AT,
    ROWS_AT,
    COLUMNS_AT,
    MEMORY_LAYOUT_AT,
    STRIDE_AT,
    MATRIX_OFFSET_AT,
    HAS_BIAS_AT,
    BIAS_OFFSET_AT
};

struct vector vector_of(const struct values *values)
{
    const struct value *at = values->at;
    return (struct vector){
        .input = at[INPUT_AT].raw,
        .interpretation = at[INPUT_INTERPRETATION_AT].raw,
        .matrix_kind = at[MATRIX_INTERPRETATION_AT].raw,
        .rows = at[ROWS_AT].raw,
        .columns = at[COLUMNS_AT].raw,
        .is_column_major = at[MEMORY_LAYOUT_AT].raw == MOONBLEAT_COLUMN_MAJOR,
        .stride = at[STRIDE_AT].raw,
        .matrix_offset = at[MATRIX_OFFSET_AT].raw,
        .has_bias = at[HAS_BIAS_AT].raw == 1,
        .bias_offset = at[BIAS_OFFSET_AT].raw,
    };
}

unsigned input_rows(const struct vector *vector)
{
    unsigned components = vector->columns;
    return is_packed(vector->interpretation) ? (components + PACKED_IN_A_WORD - 1) / PACKED_IN_A_WORD : components;
}

static struct operand operand_of(const struct vector *vector, unsigned element)
{
    unsigned matrix_elements = vector->rows * vector->columns;
    if (element >= matrix_elements) {
        unsigned size = sizeof(uint32_t);
        return (struct operand){element, vector->bias_offset + (uint64_t)size * (element - matrix_elements), size};
    }
    unsigned row = element / vector->columns, column = element % vector->columns;
    unsigned size = kind_bits(vector->matrix_kind) / CHAR_BIT;
    unsigned line = vector->is_column_major ? column : row, along = vector->is_column_major ? row : column;
    return (struct operand){element, vector->matrix_offset + line * vector->stride + (uint64_t)along * size, size};
}

bool find_outside_operand(const struct vector *vector, size_t memory_len, struct operand *operand)
{
    unsigned elements = vector->rows * (vector->columns + vector->has_bias);
    for (unsigned element = 0; element < elements; element++) {
        *operand = operand_of(vector, element);
        if (operand->byte + operand->size > memory_len) {
            return true;
        }
    }
    return false;
}
