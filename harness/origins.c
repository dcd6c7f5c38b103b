#include "origins.h"

#include <limits.h>
#include <stdio.h>
#include <stdlib.h>
#include <string.h>

#include "kinds.h"
#include "traces.h"

size_t type_element_size(const uint8_t type[MOONBLEAT_TYPE_BYTES])
{
    return kind_bits(type[MOONBLEAT_TYPE_KIND]) / CHAR_BIT;
}

unsigned type_element_count(const uint8_t type[MOONBLEAT_TYPE_BYTES])
{
    return (unsigned)type[MOONBLEAT_TYPE_ROWS] * type[MOONBLEAT_TYPE_COLUMNS];
}

/* -- The steps' matrices ---------------------------------------------------------------------- */

/* The types of the registers, and the steps that gave them, on the way through a sheet. */
struct registers {
    uint8_t types[MOONBLEAT_REGISTERS][MOONBLEAT_TYPE_BYTES];
    uint8_t givers[MOONBLEAT_REGISTERS];
};

static void set_type(uint8_t type[MOONBLEAT_TYPE_BYTES], uint32_t kind, uint32_t rows, uint32_t columns)
{
    type[MOONBLEAT_TYPE_KIND] = (uint8_t)kind;
    type[MOONBLEAT_TYPE_ROWS] = (uint8_t)rows;
    type[MOONBLEAT_TYPE_COLUMNS] = (uint8_t)columns;
}

/* The type of the matrix that a step gives or stores. */
static void find_type(const struct field *step, const struct registers *registers, uint8_t type[MOONBLEAT_TYPE_BYTES])
{
    struct values values;
    field_values(step, &values);
    uint32_t rows = value_of_sort(&values, ROWS), columns = value_of_sort(&values, COLUMNS);
    uint32_t object = value_of_sort(&values, OBJECT);
    const uint8_t *source = registers->types[value_of_sort(&values, REGISTER)];
    switch (step->tag) {
    case MOONBLEAT_TAG_FILL:
        set_type(type, value_of_sort(&values, KIND), rows, columns);
        break;
    case MOONBLEAT_TAG_LOAD:
        source = registers->types[object == MOONBLEAT_NONE ? value_of_sort(&values, RESULT) : object];
        memcpy(type, source, MOONBLEAT_TYPE_BYTES);
        break;
    case MOONBLEAT_TAG_REDUCE:
        set_type(type, source[MOONBLEAT_TYPE_KIND], rows, columns);
        break;
    case MOONBLEAT_TAG_TRANSPOSE:
        set_type(type, source[MOONBLEAT_TYPE_KIND], source[MOONBLEAT_TYPE_COLUMNS], source[MOONBLEAT_TYPE_ROWS]);
        break;
    case MOONBLEAT_TAG_MULTIPLY_ADD: /* C's, the last of its numbers */
        memcpy(type, registers->types[values.at[values.count - 1].raw], MOONBLEAT_TYPE_BYTES);
        break;
    case MOONBLEAT_TAG_VECTOR:
        set_type(type, value_of_sort(&values, KIND), rows, 1);
        break;
    default: /* a store */
        memcpy(type, source, MOONBLEAT_TYPE_BYTES);
        break;
    }
}

/* Every step names first the register that it gives or stores. */
static void note_step(const struct field *field, struct registers *registers, struct origins *origins)
{
    struct step_origin *step = &origins->steps[origins->step_count++];
    *step = (struct step_origin){.field = *field, .reg = field->content[0]};
    find_type(field, registers, step->type);
    if (field->tag == MOONBLEAT_TAG_STORE) {
        step->giver = (uint8_t)(registers->givers[step->reg] - 1);
    } else {
        memcpy(registers->types[step->reg], step->type, MOONBLEAT_TYPE_BYTES);
        registers->givers[step->reg] = (uint8_t)origins->step_count;
    }
}

static void note_steps(const uint8_t *sheet, size_t sheet_len, struct origins *origins)
{
    struct registers registers = {.givers = {0}};
    struct field field;
    origins->step_count = 0;
    for (size_t at = 0; field_at(sheet, sheet_len, at, &field); at = field_end(&field)) {
        if (field.form->rank == STEP_RANK) {
            note_step(&field, &registers, origins);
        }
    }
    memcpy(origins->givers, registers.givers, sizeof origins->givers);
}

/* -- The stores' bytes ------------------------------------------------------------------------ */

/* What follows from an accepted sheet is accepted; were it not, no origin could be told. */
static void must_be_accepted(uint32_t number)
{
    if (number != 0) {
        fprintf(stderr, "moonbleat: an accepted sheet's trace gets refusal %u\n", (unsigned)number);
        abort();
    }
}

/* Writes down the bytes of a store's element. */
static void note_element(const struct entry *entry, struct origins *origins)
{
    size_t size = type_element_size(origins->steps[entry->step].type);
    for (size_t i = 0; i < size; i++) {
        origins->bytes[entry->byte + i] =
            (struct stored){(uint8_t)(entry->step + 1), (uint8_t)i, (uint16_t)entry->element};
    }
}

/* Where the stores' elements go is told by the sheet's trace. */
void trace_origins(const uint8_t *sheet, size_t sheet_len, size_t memory_len, struct origins *origins)
{
    uint32_t answer[MOONBLEAT_ANSWER];
    memset(origins->bytes, 0, memory_len * sizeof origins->bytes[0]);
    note_steps(sheet, sheet_len, origins);
    must_be_accepted(moonbleat_trace(sheet, sheet_len, memory_len, origins->trace, sizeof origins->trace, answer));
    origins->access_count = answer[MOONBLEAT_BYTE_ELEMENTS] / MOONBLEAT_ACCESS_BYTES;
    for (size_t i = 0; i < origins->access_count; i++) {
        struct entry entry = entry_at(origins->trace, i);
        if (entry.sort == MOONBLEAT_SORT_BYTE && origins->steps[entry.step].field.tag == MOONBLEAT_TAG_STORE) {
            note_element(&entry, origins);
        }
    }
}

unsigned stored_by(const struct origins *origins, size_t byte)
{
    return origins->bytes[byte].by;
}

struct origin origin_of(const struct origins *origins, size_t byte)
{
    const struct stored *stored = &origins->bytes[byte];
    uint32_t number = stored->by - 1u;
    const struct step_origin *step = &origins->steps[number];
    uint32_t columns = step->type[MOONBLEAT_TYPE_COLUMNS];
    return (struct origin){
        .step = number,
        .reg = step->reg,
        .element = stored->element,
        .row = stored->element / columns,
        .column = stored->element % columns,
        .byte = stored->byte,
        .size = (uint32_t)type_element_size(step->type),
    };
}
