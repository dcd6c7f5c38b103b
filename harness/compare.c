#include "compare.h"

#include <string.h>

bool carry_reference(struct reference *reference, struct bytes sheet, struct bytes memory)
{
    struct result *result = &reference->result;
    reference->sheet = sheet;
    reference->memory = memory;
    if (moonbleat_carry_out(sheet.at, sheet.len, memory.at, memory.len, result->types, result->elements,
                            result->answer) != 0) {
        return false;
    }
    trace_origins(sheet.at, sheet.len, memory.len, &reference->origins);
    find_shown(sheet.at, sheet.len, memory.len, &reference->origins, &reference->shown);
    return true;
}

struct refused refused_reference(const struct reference *reference)
{
    return (struct refused){
        .sheet = reference->sheet.at,
        .sheet_len = reference->sheet.len,
        .memory_len = reference->memory.len,
        .answer = reference->result.answer,
    };
}

/* -- Memory ----------------------------------------------------------------------------------- */

bool find_run(const struct reference *reference, const uint8_t *after, size_t from, struct run *run)
{
    const uint8_t *wants = reference->memory.at;
    size_t len = reference->memory.len;
    while (from < len && wants[from] == after[from]) {
        from++;
    }
    if (from == len) {
        return false;
    }
    const struct origins *origins = &reference->origins;
    size_t end = from + 1;
    while (end < len && wants[end] != after[end] && stored_by(origins, end) == stored_by(origins, from)) {
        end++;
    }
    *run = (struct run){from, end};
    return true;
}

/* The bytes that differ, and their first; what they show is marked. */
static void compare_memory(struct reference *reference, const uint8_t *after, struct memory_difference *difference)
{
    if (memcmp(reference->memory.at, after, reference->memory.len) == 0) {
        return;
    }
    struct run run = {0, 0};
    while (find_run(reference, after, run.end, &run)) {
        if (difference->runs == 0) {
            difference->byte = (uint32_t)run.first;
        }
        difference->runs++;
        difference->bytes += (uint32_t)(run.end - run.first);
        for (size_t i = run.first; i < run.end; i++) {
            mark_byte(&reference->differing, &reference->origins, &reference->shown, i);
        }
    }
    if (difference->runs > 0) {
        size_t byte = difference->byte;
        difference->wants = reference->memory.at[byte];
        difference->has = after[byte];
        difference->stored = stored_by(&reference->origins, byte) != 0;
        if (difference->stored != 0) {
            difference->origin = origin_of(&reference->origins, byte);
        }
    }
}

/* -- Registers -------------------------------------------------------------------------------- */

struct matrix matrix_of(const struct result *result, unsigned reg)
{
    return (struct matrix){result->types + (size_t)MOONBLEAT_TYPE_BYTES * reg,
                           result->elements + (size_t)MOONBLEAT_REGISTER_ELEMENTS * reg};
}

/* Whether both are empty, or kind and sides are equal. */
static bool same_type(const struct matrix *one, const struct matrix *other)
{
    bool both_empty = type_element_count(one->type) == 0 && type_element_count(other->type) == 0;
    return both_empty || memcmp(one->type, other->type, MOONBLEAT_TYPE_BYTES) == 0;
}

bool find_element(const struct matrix *wants, const struct matrix *has, size_t from, size_t *element)
{
    size_t count = type_element_count(wants->type);
    while (from < count && wants->elements[from] == has->elements[from]) {
        from++;
    }
    *element = from;
    return from < count;
}

static struct register_state state_of(const struct matrix *matrix, size_t element)
{
    const uint8_t *type = matrix->type;
    return (struct register_state){type[0], type[1], type[2], type[3], matrix->elements[element]};
}

bool compare_register(const struct reference *reference, const struct result *registers, unsigned reg,
                      struct register_difference *difference)
{
    struct matrix wants = matrix_of(&reference->result, reg), has = matrix_of(registers, reg);
    size_t element = 0;
    bool is_typed = same_type(&wants, &has);
    if (is_typed && !find_element(&wants, &has, 0, &element)) {
        return false;
    }
    *difference = (struct register_difference){
        .reg = reg,
        .typed = is_typed,
        .element = (uint32_t)element,
        .wants = state_of(&wants, element),
        .has = state_of(&has, element),
    };
    unsigned giver = reference->origins.givers[reg];
    if (giver != 0) {
        difference->given = 1;
        difference->step = giver - 1;
        difference->tag = reference->origins.steps[giver - 1].field.tag;
    }
    return true;
}

/* Marks the elements of a register that differ: of another type, all. */
static void mark_register(struct reference *reference, const struct result *registers, unsigned reg)
{
    struct matrix wants = matrix_of(&reference->result, reg), has = matrix_of(registers, reg);
    bool is_typed = same_type(&wants, &has);
    if (type_element_count(wants.type) == 0) {
        mark_stray(&reference->differing);
    }
    for (size_t i = 0; i < type_element_count(wants.type); i++) {
        if (!is_typed || wants.elements[i] != has.elements[i]) {
            mark_element(&reference->differing, reg, i);
        }
    }
}

static void compare_registers(struct reference *reference, const struct result *registers,
                              struct register_difference *first)
{
    uint32_t count = 0;
    for (unsigned reg = 0; reg < MOONBLEAT_REGISTERS; reg++) {
        struct register_difference difference;
        if (compare_register(reference, registers, reg, &difference)) {
            mark_register(reference, registers, reg);
            *first = count++ == 0 ? difference : *first;
        }
    }
    first->registers = count;
}

/* -- Both ------------------------------------------------------------------------------------- */

void compare_card(struct reference *reference, const uint8_t *after, const struct result *registers,
                  struct finding *finding, uint32_t *counts)
{
    const struct origins *origins = &reference->origins;
    const struct shown *elements = &reference->shown;
    bool has_registers = registers != NULL;
    *finding = (struct finding){
        .verdict = VERDICT_AGREES,
        .shows = has_registers ? SHOWS_MEMORY | SHOWS_REGISTERS : SHOWS_MEMORY,
    };
    clear_differing(&reference->differing);
    compare_memory(reference, after, &finding->memory);
    if (has_registers) {
        compare_registers(reference, registers, &finding->registers);
    }
    if (finding->memory.bytes == 0 && finding->registers.registers == 0) {
        return;
    }
    finding->verdict = VERDICT_DIFFERS;
    count_differing(&reference->differing, origins, elements, counts);
    find_lead(&reference->differing, origins, elements, &finding->lead);
    if (finding->lead.there != 0) {
        map_lead(&reference->differing, origins, elements, has_registers, &finding->lead, &finding->map);
    }
}
