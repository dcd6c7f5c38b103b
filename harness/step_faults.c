#include "step_faults.h"

#include <inttypes.h>

#include "kinds.h"
#include "moonbleat.h"
#include "places.h"
#include "vectors.h"

static bool is_empty(const struct step *step, uint32_t number)
{
    return register_type(step, number)[MOONBLEAT_TYPE_ROWS] == 0;
}

bool find_empty_register(const struct step *step, struct text *cause)
{
    for (size_t i = 0; i < step->values.count; i++) {
        const struct value *value = &step->values.at[i];
        bool is_own = value->form->sort == OBJECT && value->raw == MOONBLEAT_NONE;
        uint32_t number = is_own ? value_of_sort(&step->values, RESULT) : value->raw;
        bool is_read = value->form->sort == REGISTER || value->form->sort == OBJECT;
        if (is_read && is_empty(step, number)) {
            add_text(cause, "register %" PRIu32 " is empty", number);
            if (is_own) {
                bool zeros = start_of(&step->values) == FROM_ZEROS;
                add_text(cause, ", and without an object the load starts from %s", zeros ? "zeros of its type" : "it");
            }
            return true;
        }
    }
    return false;
}

static void add_type(struct text *text, const struct step *step, uint32_t number)
{
    const uint8_t *type = register_type(step, number);
    add_text(text, "register %" PRIu32 " (%ux%u %s)", number, (unsigned)type[MOONBLEAT_TYPE_ROWS],
             (unsigned)type[MOONBLEAT_TYPE_COLUMNS], kind_name(type[MOONBLEAT_TYPE_KIND]));
}

/* Whether a reduce to some sides may have a source of a type. */
static bool reduce_fits(uint32_t mode, uint32_t rows, uint32_t columns, const uint8_t *type)
{
    switch (mode) {
    case MOONBLEAT_REDUCE_ROW:
        return rows == type[MOONBLEAT_TYPE_ROWS];
    case MOONBLEAT_REDUCE_COLUMN:
        return columns == type[MOONBLEAT_TYPE_COLUMNS];
    case MOONBLEAT_REDUCE_2X2:
        return 2 * rows == type[MOONBLEAT_TYPE_ROWS] && 2 * columns == type[MOONBLEAT_TYPE_COLUMNS];
    default:
        return true;
    }
}

static bool find_reduce_fault(const struct step *step, struct text *cause)
{
    static const char *const rules[] = {
        [MOONBLEAT_REDUCE_ROW] = "the rows must be the source's",
        [MOONBLEAT_REDUCE_COLUMN] = "the columns must be the source's",
        [MOONBLEAT_REDUCE_2X2] = "rows and columns must be half the source's",
    };
    uint32_t mode = value_of_sort(&step->values, MODE), source = value_of_sort(&step->values, REGISTER);
    uint32_t rows = value_of_sort(&step->values, ROWS), columns = value_of_sort(&step->values, COLUMNS);
    if (reduce_fits(mode, rows, columns, register_type(step, source))) {
        return false;
    }
    add_text(cause, "a result of %" PRIu32 "x%" PRIu32 " of ", rows, columns);
    add_type(cause, step, source);
    add_text(cause, ": %s", rules[mode]);
    return true;
}

static bool find_multiply_fault(const struct step *step, struct text *cause)
{
    enum { RESULT_AT, A_AT, B_AT, C_AT };
    const struct value *values = step->values.at;
    const uint8_t *a = register_type(step, values[A_AT].raw), *b = register_type(step, values[B_AT].raw),
                  *c = register_type(step, values[C_AT].raw);
    bool sides_fit = a[MOONBLEAT_TYPE_ROWS] == c[MOONBLEAT_TYPE_ROWS] &&
                     a[MOONBLEAT_TYPE_COLUMNS] == b[MOONBLEAT_TYPE_ROWS] &&
                     b[MOONBLEAT_TYPE_COLUMNS] == c[MOONBLEAT_TYPE_COLUMNS];
    bool kind_fits = c[MOONBLEAT_TYPE_KIND] == MOONBLEAT_U32 || c[MOONBLEAT_TYPE_KIND] == MOONBLEAT_S32;
    for (unsigned i = A_AT; i <= C_AT; i++) {
        add_text(cause, "%s%s ", i == A_AT ? "" : ", ", values[i].form->name);
        add_type(cause, step, values[i].raw);
    }
    add_text(cause, sides_fit ? ": C must be u32 or s32" : ": the sides must be MxK, KxN and MxN");
    return !sides_fit || !kind_fits;
}

static bool find_input_fault(const struct step *step, struct text *cause)
{
    struct vector vector = vector_of(&step->values);
    const uint8_t *type = register_type(step, vector.input);
    bool packed = is_packed(vector.interpretation);
    bool sides_fit = type[MOONBLEAT_TYPE_ROWS] == input_rows(&vector) && type[MOONBLEAT_TYPE_COLUMNS] == 1;
    if (sides_fit && (!packed || type[MOONBLEAT_TYPE_KIND] == MOONBLEAT_U32)) {
        return false;
    }
    add_text(cause, "input ");
    add_type(cause, step, vector.input);
    add_text(cause, " as %s: with K %u it must be %ux1%s", interpretation_name(vector.interpretation), vector.columns,
             input_rows(&vector), packed ? " u32" : "");
    return true;
}

bool find_shape_fault(const struct step *step, struct text *cause)
{
    switch (step->field.tag) {
    case MOONBLEAT_TAG_REDUCE:
        return find_reduce_fault(step, cause);
    case MOONBLEAT_TAG_MULTIPLY_ADD:
        return find_multiply_fault(step, cause);
    case MOONBLEAT_TAG_VECTOR:
        return find_input_fault(step, cause);
    default:
        return false;
    }
}

static void add_outside_memory(struct text *text, uint64_t byte, unsigned size, size_t memory_len)
{
    if (size > 1) {
        add_text(text, "bytes %" PRIu64 " to %" PRIu64 " do not all", byte, byte + size - 1);
    } else {
        add_text(text, "byte %" PRIu64 " does not", byte);
    }
    add_text(text, " lie in the memory of %zu bytes", memory_len);
}

bool find_operand_fault(const struct step *step, size_t memory_len, unsigned *element, struct text *cause)
{
    if (step->field.tag != MOONBLEAT_TAG_VECTOR) {
        return false;
    }
    struct vector vector = vector_of(&step->values);
    struct operand operand;
    if (!find_outside_operand(&vector, memory_len, &operand)) {
        return false;
    }
    *element = operand.element;
    if (operand.element < vector.rows * vector.columns) {
        add_text(cause, "matrix row %u, column %u: ", *element / vector.columns, *element % vector.columns);
    } else {
        add_text(cause, "bias %u: ", *element - vector.rows * vector.columns);
    }
    add_outside_memory(cause, operand.byte, operand.size, memory_len);
    return true;
}

static bool find_base_fault(const struct access *access, struct text *cause)
{
    add_text(cause, "base %" PRIu64 " is not a multiple of 16", access->base);
    return access->base % 16 != 0;
}

static bool find_view_fault(const struct step *step, const struct access *access, struct text *cause)
{
    add_text(cause, "view %" PRIu32 " has no dimensions of its own and permutes %u, layout %" PRIu32 " has %u",
             value_of_sort(&step->values, VIEW), access->view.count, value_of_sort(&step->values, LAYOUT),
             access->layout.count);
    return access->has_view && !access->view.sized && access->view.count != access->layout.count;
}

static bool find_block_fault(const struct step *step, const struct access *access, struct text *cause)
{
    for (unsigned i = 0; i < access->layout.count; i++) {
        int64_t block = access->layout.dimensions[i].block;
        if (block > 1) {
            add_text(cause, "layout %" PRIu32 ", dimension %u: block %" PRId64 " is above 1",
                     value_of_sort(&step->values, LAYOUT), i, block);
            return access->is_store;
        }
    }
    return false;
}

static void add_position(struct text *text, const struct access *access, unsigned element)
{
    add_text(text, "row %u, column %u", element / access->columns, element % access->columns);
}

static bool find_outside_fault(const struct access *access, const struct place *place, struct text *cause)
{
    add_text(cause, ": coordinate %" PRId64 " of dimension %u is not within 0 to %" PRId64
                    ", and the clamp mode is Undefined",
             place->coordinates[place->dimension].given, place->dimension,
             access->layout.dimensions[place->dimension].size - 1);
    return place->outcome == OUTSIDE;
}

static bool find_address_fault(const struct refused *refused, const struct access *access, const struct place *place,
                               struct text *cause)
{
    add_text(cause, ": ");
    add_outside_memory(cause, place->byte, access->size, refused->memory_len);
    return place->outcome == PLACED && place->byte + access->size > refused->memory_len;
}

static bool find_shared_byte(const struct access *access, const struct place *place, unsigned element,
                             struct text *cause)
{
    for (unsigned earlier = 0; earlier < element; earlier++) {
        struct place other = place_of(access, earlier);
        if (other.outcome == PLACED && other.byte == place->byte) {
            add_text(cause, ": byte %" PRIu64 " has element %u already, ", place->byte, earlier);
            add_position(cause, access, earlier);
            return place->outcome == PLACED;
        }
    }
    return false;
}

static bool find_element_fault(const struct refused *refused, const struct access *access, struct text *cause)
{
    unsigned element = refused->answer[MOONBLEAT_SECOND_PLACE];
    struct place place = place_of(access, element);
    add_position(cause, access, element);
    switch (refused->answer[MOONBLEAT_NUMBER]) {
    case MOONBLEAT_REFUSED_INDEX:
        add_text(cause, ": the index after the view is %" PRIu64 ", not below 4294967296", place.index);
        return place.outcome == INDEX_TOO_LARGE;
    case MOONBLEAT_REFUSED_OUTSIDE:
        return find_outside_fault(access, &place, cause);
    case MOONBLEAT_REFUSED_ADDRESS:
        return find_address_fault(refused, access, &place, cause);
    default:
        return find_shared_byte(access, &place, element, cause);
    }
}

/* Refusals 9 to 15 of a load or a store. */
static bool find_access_fault(const struct refused *refused, const struct step *step, struct text *cause)
{
    struct access access;
    if (!find_access(refused, step, &access)) {
        return false;
    }
    switch (refused->answer[MOONBLEAT_NUMBER]) {
    case MOONBLEAT_REFUSED_BASE:
        return find_base_fault(&access, cause);
    case MOONBLEAT_REFUSED_VIEW:
        return find_view_fault(step, &access, cause);
    case MOONBLEAT_REFUSED_BLOCK:
        return find_block_fault(step, &access, cause);
    default:
        return find_element_fault(refused, &access, cause);
    }
}

/* Refusal 14 of a vector step, at the library's own element. */
static bool find_vector_fault(const struct refused *refused, const struct step *step, struct text *cause)
{
    unsigned element;
    return find_operand_fault(step, refused->memory_len, &element, cause) &&
           element == refused->answer[MOONBLEAT_SECOND_PLACE];
}

bool find_step_fault(const struct refused *refused, struct text *cause)
{
    struct step step;
    if (!find_step(refused, refused->answer[MOONBLEAT_PLACE], &step) || !find_types(refused, &step)) {
        return false;
    }
    add_text(cause, "%s: ", step.field.form->name);
    switch (refused->answer[MOONBLEAT_NUMBER]) {
    case MOONBLEAT_REFUSED_EMPTY_REGISTER:
        return find_empty_register(&step, cause);
    case MOONBLEAT_REFUSED_SHAPE:
        return find_shape_fault(&step, cause);
    default:
        return step.field.tag == MOONBLEAT_TAG_VECTOR ? find_vector_fault(refused, &step, cause)
                                                      : find_access_fault(refused, &step, cause);
    }
}
