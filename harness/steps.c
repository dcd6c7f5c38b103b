#include "steps.h"

#include "kinds.h"
#include "moonbleat.h"

/* The field of a rank and a number. */
static bool find_field(const struct refused *refused, enum rank rank, uint32_t number, struct field *field)
{
    uint32_t before = 0;
    for (size_t at = 0; field_at(refused->sheet, refused->sheet_len, at, field); at = field_end(field)) {
        if (field->form == NULL) {
            return false;
        }
        if (field->form->rank == rank && before++ == number) {
            return true;
        }
    }
    return false;
}

bool find_step(const struct refused *refused, uint32_t number, struct step *step)
{
    if (!find_field(refused, STEP_RANK, number, &step->field)) {
        return false;
    }
    field_values(&step->field, &step->values);
    return true;
}

/* The steps before it are carried out, and no byte of a memory changes a type. */
bool find_types(const struct refused *refused, struct step *step)
{
    static uint8_t memory[MOONBLEAT_MEMORY_MAX];
    static uint32_t elements[MOONBLEAT_ELEMENTS];
    uint32_t answer[MOONBLEAT_ANSWER] = {0};
    return refused->memory_len <= MOONBLEAT_MEMORY_MAX &&
           moonbleat_carry_out(refused->sheet, step->field.at, memory, refused->memory_len, step->types, elements,
                               answer) == 0;
}

const uint8_t *register_type(const struct step *step, uint32_t number)
{
    return step->types + (size_t)MOONBLEAT_TYPE_BYTES * (number % MOONBLEAT_REGISTERS);
}

/* The register whose type a load or a store goes by. */
static uint32_t matrix_of(const struct step *step)
{
    uint32_t object = value_of_sort(&step->values, OBJECT);
    if (step->field.tag == MOONBLEAT_TAG_STORE) {
        return value_of_sort(&step->values, REGISTER);
    }
    return object == MOONBLEAT_NONE ? value_of_sort(&step->values, RESULT) : object;
}

bool is_access(const struct step *step)
{
    return step->field.tag == MOONBLEAT_TAG_LOAD || step->field.tag == MOONBLEAT_TAG_STORE;
}

bool find_addressing(const struct refused *refused, const struct step *step, const uint8_t type[MOONBLEAT_TYPE_BYTES],
                     struct access *access)
{
    struct field layout, view;
    struct values values;
    uint32_t view_number = value_of_sort(&step->values, VIEW);
    access->is_store = step->field.tag == MOONBLEAT_TAG_STORE;
    access->has_view = view_number != MOONBLEAT_NONE;
    if (!find_field(refused, LAYOUT_RANK, value_of_sort(&step->values, LAYOUT), &layout) ||
        (access->has_view && !find_field(refused, VIEW_RANK, view_number, &view))) {
        return false;
    }
    field_values(&layout, &values);
    access->layout = layout_of(&values);
    if (access->has_view) {
        field_values(&view, &values);
        access->view = view_of(&values, &access->layout);
    }
    access->base = step->values.at[step->values.count - 1].raw;
    access->kind = type[MOONBLEAT_TYPE_KIND];
    access->rows = type[MOONBLEAT_TYPE_ROWS];
    access->columns = type[MOONBLEAT_TYPE_COLUMNS];
    access->size = kind_bits(access->kind) / 8;
    return access->columns > 0;
}

bool find_access(const struct refused *refused, const struct step *step, struct access *access)
{
    return find_addressing(refused, step, register_type(step, matrix_of(step)), access);
}
