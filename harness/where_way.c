/* The way of an element, rule by rule. */
#include <inttypes.h>
#include <limits.h>

#include "where.h"

static struct text *add_line(struct way *way)
{
    struct text *line = &way->lines[way->count++];
    *line = (struct text){.len = 0};
    return line;
}

static struct text *add_rule(struct way *way, unsigned number)
{
    struct text *line = add_line(way);
    add_text(line, "rule %u: ", number);
    return line;
}

/* Adds why a row or a column is outside the clip. */
static void add_bound(struct text *line, const char *what, const struct clip *clip, unsigned position)
{
    add_text(line, "%s %u is ", what, position);
    if (bound_of(clip, position) == BEFORE) {
        add_text(line, "below %s offset %" PRIu64, what, clip->offset);
    } else {
        add_text(line, "not below %s offset + span, %" PRIu64 " + %" PRIu64 " = %" PRIu64, what, clip->offset,
                 clip->span, clip->offset + clip->span);
    }
}

static void tell_clip(const struct access *access, unsigned row, unsigned column, struct text *line)
{
    const struct view *view = &access->view;
    add_text(line, "outside the clip: ");
    if (bound_of(&view->rows, row) != WITHIN) {
        add_bound(line, "row", &view->rows, row);
    } else {
        add_bound(line, "column", &view->columns, column);
    }
}

static void tell_matrix_index(const struct access *access, unsigned row, unsigned column, const struct place *place,
                              struct way *way)
{
    const struct view *view = &access->view;
    struct text *line = add_rule(way, 1);
    if (place->outcome == SKIPPED) {
        tell_clip(access, row, column, line);
    } else if (access->has_view) {
        add_text(line, "inside the clip; width %" PRIu64 ", the smaller of %u columns and column span %" PRIu64,
                 clipped_width(access), access->columns, view->columns.span);
        add_text(add_rule(way, 1),
                 "(row - offset) * width + column - offset: (%u - %" PRIu64 ") * %" PRIu64 " + %u - %" PRIu64
                 " = %" PRIu64,
                 row, view->rows.offset, clipped_width(access), column, view->columns.offset, place->matrix_index);
    } else {
        add_text(line, "no view; row * columns + column: %u * %u + %u = %" PRIu64, row, access->columns, column,
                 place->matrix_index);
    }
}

static void add_division(struct text *line, const struct division *division)
{
    add_text(line, "%" PRIu64 " mod %" PRIu64 " = %" PRIu64 ", left %" PRIu64, division->index, division->size,
             division->coordinate, division->left);
}

static void tell_index(const struct access *access, const struct place *place, struct way *way)
{
    const struct view *view = &access->view;
    if (!access->has_view) {
        add_text(add_rule(way, 2), "no view; the index stays %" PRIu64, place->index);
        return;
    }
    for (unsigned i = view->count; i > 0; i--) {
        unsigned dimension = view->permutation[i - 1];
        struct text *line = add_rule(way, 2);
        add_text(line, "permutation entry %u, coordinate %u: ", i - 1, dimension);
        add_division(line, &place->view[dimension]);
    }
    struct text *line = add_rule(way, 2);
    add_text(line, "coordinate * stride, %s: ", view->sized ? "the view's own" : "of the layout's spans");
    for (unsigned i = 0; i < view->count; i++) {
        add_text(line, "%s%" PRIu64 " * %" PRIu64, i > 0 ? " + " : "", place->view[i].coordinate, view->strides[i]);
    }
    add_text(line, " = %" PRIu64, place->index);
}

static void tell_spans(const struct access *access, const struct place *place, struct way *way)
{
    for (unsigned i = access->layout.count; i > 0; i--) {
        struct text *line = add_rule(way, 3);
        add_text(line, "dimension %u, by its span: ", i - 1);
        add_division(line, &place->spans[i - 1]);
        add_text(line, "%s", i == 1 ? ", dropped" : "");
    }
}

/* Adds what becomes of a coordinate outside. */
static void add_clamping(struct text *line, const struct access *access, const struct place *place, unsigned dimension)
{
    const char *mode = clamp_mode_name(access->layout.mode);
    if (place->outcome == DISCARDED) {
        add_text(line, "; a store discards");
    } else if (place->outcome == FILLED) {
        add_text(line, "; %s fills", mode);
    } else {
        add_text(line, "; %s gives %" PRId64, mode, place->coordinates[dimension].kept);
    }
}

static void tell_coordinates(const struct access *access, const struct place *place, struct way *way)
{
    for (unsigned i = 0; i < access->layout.count; i++) {
        const struct coordinate *coordinate = &place->coordinates[i];
        struct text *line = add_rule(way, 4);
        add_text(line, "dimension %u, with its offset: %" PRIu64 " + %" PRId64 " = %" PRId64 ", %s 0 to %" PRId64, i,
                 place->spans[i].coordinate, access->layout.dimensions[i].offset, coordinate->given,
                 side_name(coordinate->side), access->layout.dimensions[i].size - 1);
        if (coordinate->side != MOONBLEAT_SIDE_INSIDE) {
            add_clamping(line, access, place, i);
        }
    }
}

static void tell_byte(const struct access *access, const struct place *place, struct way *way)
{
    const struct layout *layout = &access->layout;
    struct text *line = add_rule(way, 5);
    if (place->outcome != PLACED) {
        add_text(line, "does not apply");
        return;
    }
    add_text(line, "coordinate / block * stride: ");
    for (unsigned i = 0; i < layout->count; i++) {
        add_text(line, "%s%" PRId64 " / %" PRId64 " * %" PRId64, i > 0 ? " + " : "", place->coordinates[i].kept,
                 layout->dimensions[i].block, layout->dimensions[i].stride);
    }
    add_text(line, " = %" PRIu64, place->tensor_index);
    add_text(add_rule(way, 5), "base + tensor index * element size: %" PRIu64 " + %" PRIu64 " * %u = %" PRIu64,
             access->base, place->tensor_index, access->size, place->byte);
}

static void tell_mask(const struct where *where, unsigned element, struct text *line)
{
    uint32_t step = where->number;
    add_text(line, "mask: ");
    if (!has_masks(where)) {
        add_text(line, "%s", no_mask(where).at);
        return;
    }
    add_text(line, "byte %d * %" PRIu32 " + %u / %d = %" PRIu32 ", bit %u mod %d = %u: %s", MOONBLEAT_MASK_BYTES, step,
             element, CHAR_BIT, MOONBLEAT_MASK_BYTES * step + element / CHAR_BIT, element, CHAR_BIT, element % CHAR_BIT,
             is_touched(where->translation->masks, step, element) ? "set" : "not set");
}

void tell_way(const struct where *where, unsigned element, const struct place *place, const struct told *told,
              struct way *way)
{
    const struct access *access = &where->access;
    unsigned row = element / access->columns, column = element % access->columns;
    way->count = 0;
    add_text(add_line(way), "element %u: row %u, column %u", element, row, column);
    tell_matrix_index(access, row, column, place, way);
    if (place->outcome == SKIPPED) {
        add_text(add_line(way), "rules 2 to 5: do not apply");
    } else {
        tell_index(access, place, way);
        tell_spans(access, place, way);
        tell_coordinates(access, place, way);
        tell_byte(access, place, way);
    }
    struct text *outcome = add_line(way);
    add_text(outcome, "outcome: ");
    add_outcome(outcome, access->kind, told);
    tell_mask(where, element, add_line(way));
}
