#include "places.h"

/* The numbers of a part's repetition stand in its order. */
static const struct value *part_values(const struct values *values, size_t part, unsigned dimension)
{
    size_t i = 0;
    while (i < values->count && (values->at[i].part != part || values->at[i].dimension != dimension)) {
        i++;
    }
    return &values->at[i];
}

struct layout layout_of(const struct values *values)
{
    struct layout layout = {.count = value_of_sort(values, COUNT), .mode = value_of_sort(values, MODE)};
    layout.value = part_values(values, 0, 0)[2].raw;
    for (unsigned i = 0; i < layout.count; i++) {
        const struct value *value = part_values(values, 1, i);
        layout.dimensions[i].block = value[0].raw;
        layout.dimensions[i].size = value[1].raw;
        layout.dimensions[i].stride = value[2].raw;
        layout.dimensions[i].offset = number_of(value[3].form, value[3].raw);
        layout.dimensions[i].span = value[4].raw;
    }
    return layout;
}

/* A view without dimensions takes the layout's spans, row-major. */
static void take_spans(struct view *view, const struct layout *layout)
{
    uint64_t stride = 1;
    for (unsigned i = layout->count; i > 0; i--) {
        view->sizes[i - 1] = (uint64_t)layout->dimensions[i - 1].span;
        view->strides[i - 1] = stride;
        stride *= view->sizes[i - 1];
    }
}

struct view view_of(const struct values *values, const struct layout *layout)
{
    struct view view = {.count = value_of_sort(values, COUNT), .sized = value_of_sort(values, SIZED) == 1};
    for (unsigned i = 0; i < view.count; i++) {
        view.permutation[i] = part_values(values, 1, i)->raw;
        if (view.sized) {
            const struct value *value = part_values(values, 2, i);
            view.sizes[i] = value[0].raw;
            view.strides[i] = value[1].raw;
        }
    }
    if (!view.sized) {
        take_spans(&view, layout);
    }
    const struct value *clip = part_values(values, 3, 0);
    view.rows = (struct clip){clip[0].raw, clip[1].raw};
    view.columns = (struct clip){clip[2].raw, clip[3].raw};
    return view;
}

enum bound bound_of(const struct clip *clip, uint64_t position)
{
    if (position < clip->offset) {
        return BEFORE;
    }
    return position < clip->offset + clip->span ? WITHIN : BEHIND;
}

uint64_t clipped_width(const struct access *access)
{
    return access->columns < access->view.columns.span ? access->columns : access->view.columns.span;
}

/* Rule 1: the index of an element; false if it is clipped, or, where the clip has no end, before it. */
static bool find_matrix_index(const struct access *access, unsigned element, bool has_end, struct place *place)
{
    const struct view *view = &access->view;
    uint64_t row = element / access->columns, column = element % access->columns;
    if (!access->has_view) {
        place->matrix_index = element;
        return true;
    }
    const enum bound bounds[] = {bound_of(&view->rows, row), bound_of(&view->columns, column)};
    if (bounds[0] == BEFORE || bounds[1] == BEFORE || (has_end && (bounds[0] == BEHIND || bounds[1] == BEHIND))) {
        return false;
    }
    place->matrix_index = (row - view->rows.offset) * clipped_width(access) + column - view->columns.offset;
    return true;
}

/* Takes an index apart by a size; gives what is left of it. */
static uint64_t divide(uint64_t index, uint64_t size, struct division *division)
{
    *division = (struct division){index, size, index % size, index / size};
    return division->left;
}

/* Rule 2: the index through the view's dimensions. */
static void find_index(const struct access *access, struct place *place)
{
    const struct view *view = &access->view;
    if (!access->has_view) {
        place->index = place->matrix_index;
        return;
    }
    uint64_t left = place->matrix_index;
    for (unsigned i = view->count; i > 0; i--) {
        unsigned dimension = view->permutation[i - 1];
        left = divide(left, view->sizes[dimension], &place->view[dimension]);
        place->index += place->view[dimension].coordinate * view->strides[dimension];
    }
}

static uint32_t side_of(int64_t coordinate, int64_t size)
{
    if (coordinate < 0) {
        return MOONBLEAT_SIDE_BELOW;
    }
    return coordinate < size ? MOONBLEAT_SIDE_INSIDE : MOONBLEAT_SIDE_ABOVE;
}

/* Rules 3 and 4: the coordinates. Rule 3 goes from the last dimension to the first, rule 4 names the
 * first one outside. */
static void find_coordinates(const struct layout *layout, struct place *place)
{
    uint64_t left = place->index;
    for (unsigned i = layout->count; i > 0; i--) {
        struct coordinate *coordinate = &place->coordinates[i - 1];
        left = divide(left, (uint64_t)layout->dimensions[i - 1].span, &place->spans[i - 1]);
        coordinate->given = (int64_t)place->spans[i - 1].coordinate + layout->dimensions[i - 1].offset;
        coordinate->side = side_of(coordinate->given, layout->dimensions[i - 1].size);
        if (coordinate->side != MOONBLEAT_SIDE_INSIDE) {
            place->dimension = i - 1;
            place->side = coordinate->side;
        }
    }
}

/* What becomes of an element by its coordinates. */
static enum outcome outcome_of(const struct access *access, const struct place *place)
{
    if (place->side == MOONBLEAT_SIDE_INSIDE) {
        return PLACED;
    }
    if (access->layout.mode == MOONBLEAT_CLAMP_UNDEFINED) {
        return OUTSIDE;
    }
    if (access->is_store) {
        return DISCARDED;
    }
    return access->layout.mode == MOONBLEAT_CLAMP_CONSTANT ? FILLED : PLACED;
}

/* A remainder with the divisor's sign. */
static int64_t modulo(int64_t number, int64_t divisor)
{
    return (number % divisor + divisor) % divisor;
}

/* Rule 4 for a load: a coordinate outside brought inside. */
static int64_t clamped(uint32_t mode, int64_t coordinate, int64_t size)
{
    switch (mode) {
    case MOONBLEAT_CLAMP_TO_EDGE:
        return coordinate < 0 ? 0 : size - 1;
    case MOONBLEAT_CLAMP_REPEAT:
        return modulo(coordinate, size);
    default: {
        int64_t turn = size == 1 ? 1 : 2 * size - 2;
        int64_t rest = modulo(coordinate, turn);
        return rest < size ? rest : turn - rest;
    }
    }
}

/* Rule 5. */
static void find_byte(const struct access *access, struct place *place)
{
    const struct layout *layout = &access->layout;
    for (unsigned i = 0; i < layout->count; i++) {
        struct coordinate *coordinate = &place->coordinates[i];
        coordinate->kept = coordinate->side == MOONBLEAT_SIDE_INSIDE
                               ? coordinate->given
                               : clamped(layout->mode, coordinate->given, layout->dimensions[i].size);
        place->tensor_index +=
            (uint64_t)(coordinate->kept / layout->dimensions[i].block * layout->dimensions[i].stride);
    }
    place->byte = access->base + place->tensor_index * access->size;
}

/* The low bits of a number, as many as some bytes have. */
static uint32_t low_bits(uint32_t number, unsigned size)
{
    return number & UINT32_MAX >> (8 * (sizeof number - size));
}

/* Rules 2 to 5. */
static void follow_index(const struct access *access, struct place *place)
{
    find_index(access, place);
    if (place->index > UINT32_MAX) {
        place->outcome = INDEX_TOO_LARGE;
        return;
    }
    find_coordinates(&access->layout, place);
    place->outcome = outcome_of(access, place);
    if (place->outcome == FILLED) {
        place->bits = low_bits(access->layout.value, access->size);
    } else if (place->outcome == PLACED) {
        find_byte(access, place);
    }
}

struct place place_of(const struct access *access, unsigned element)
{
    struct place place = {.outcome = SKIPPED};
    if (find_matrix_index(access, element, true, &place)) {
        follow_index(access, &place);
    }
    return place;
}

struct place place_unclipped(const struct access *access, unsigned element)
{
    struct place place = {.outcome = SKIPPED};
    if (find_matrix_index(access, element, false, &place)) {
        follow_index(access, &place);
    }
    return place;
}

/* -- Bytes of elements that a store discards --------------------------------------------------- */

/* The layout of a store has no blocks. */
static int64_t byte_at(const struct access *access, const int64_t coordinates[DIMENSIONS_MAX])
{
    int64_t index = 0;
    for (unsigned i = 0; i < access->layout.count; i++) {
        index += coordinates[i] * access->layout.dimensions[i].stride;
    }
    return (int64_t)access->base + index * access->size;
}

int64_t byte_outside(const struct access *access, const struct place *place)
{
    int64_t coordinates[DIMENSIONS_MAX];
    for (unsigned i = 0; i < access->layout.count; i++) {
        coordinates[i] = place->coordinates[i].given;
    }
    return byte_at(access, coordinates);
}

int64_t byte_clamped(const struct access *access, const struct place *place)
{
    int64_t coordinates[DIMENSIONS_MAX];
    for (unsigned i = 0; i < access->layout.count; i++) {
        const struct coordinate *coordinate = &place->coordinates[i];
        coordinates[i] = coordinate->side == MOONBLEAT_SIDE_INSIDE
                             ? coordinate->given
                             : clamped(access->layout.mode, coordinate->given, access->layout.dimensions[i].size);
    }
    return byte_at(access, coordinates);
}
