/* Where an element of a load or a store goes: rules 1 to 5 of docs/SHEETS.md, for diagnoses and for
 * those who ask. The library decides; this tells the numbers on the way, which it does not. */
#ifndef PLACES_H
#define PLACES_H

#include <stdbool.h>
#include <stdint.h>

#include "fields.h"
#include "moonbleat.h"

/* What becomes of an element: one of the library's sorts, or it is refused. */
enum outcome {
    SKIPPED = MOONBLEAT_SORT_SKIPPED,
    FILLED = MOONBLEAT_SORT_FILLED,
    DISCARDED = MOONBLEAT_SORT_DISCARDED,
    PLACED = MOONBLEAT_SORT_BYTE,
    INDEX_TOO_LARGE,
    OUTSIDE
};

struct layout {
    unsigned count;
    uint32_t mode;
    uint32_t value;
    struct {
        int64_t block;
        int64_t size;
        int64_t stride;
        int64_t offset;
        int64_t span;
    } dimensions[DIMENSIONS_MAX];
};

/* Which positions a clip takes, of rows or of columns. */
struct clip {
    uint64_t offset;
    uint64_t span;
};

struct view {
    unsigned count;
    bool sized; /* by itself; else sizes and strides come from a layout's spans */
    unsigned permutation[DIMENSIONS_MAX];
    uint64_t sizes[DIMENSIONS_MAX];
    uint64_t strides[DIMENSIONS_MAX];
    struct clip rows, columns;
};

/* A layout, and a view on it, of the numbers of their fields. */
struct layout layout_of(const struct values *values);
struct view view_of(const struct values *values, const struct layout *layout);

/* What a load or a store addresses with. */
struct access {
    bool is_store;
    struct layout layout;
    bool has_view;
    struct view view;
    uint64_t base;
    uint32_t kind; /* of the matrix, as its sides */
    unsigned rows;
    unsigned columns;
    unsigned size; /* bytes of an element */
};

/* A step of taking an index apart, in rules 2 and 3: remainder and quotient. */
struct division {
    uint64_t index;
    uint64_t size;
    uint64_t coordinate;
    uint64_t left;
};

/* A coordinate in rule 4. */
struct coordinate {
    int64_t given; /* the span coordinate and the offset */
    uint32_t side;
    int64_t kept; /* where the element is placed: what the clamp mode makes of it */
};

/* An element on its way. What comes after the rule that ends it is 0. */
struct place {
    enum outcome outcome;
    uint64_t matrix_index;                         /* rule 1 */
    struct division view[DIMENSIONS_MAX];          /* rule 2, by the view's dimensions */
    uint64_t index;                                /* after it */
    struct division spans[DIMENSIONS_MAX];         /* rule 3 */
    struct coordinate coordinates[DIMENSIONS_MAX]; /* rule 4 */
    unsigned dimension;                            /* the first one outside .. */
    uint32_t side;                                 /* .. and where it is left */
    uint32_t bits;                                 /* where filled */
    uint64_t tensor_index;                         /* rule 5, where placed */
    uint64_t byte;
};

struct place place_of(const struct access *access, unsigned element);

/* The place that a skipped element would have if the clip did not end where it does; skipped where it lies before
 * the clip. */
struct place place_unclipped(const struct access *access, unsigned element);

/* Where a discarded element would go if its store wrote on outside the tensor, or clamped as loads do: the byte
 * from the start of memory, which may lie outside. */
int64_t byte_outside(const struct access *access, const struct place *place);
int64_t byte_clamped(const struct access *access, const struct place *place);

/* Where a position lies from a clip. */
enum bound { WITHIN, BEFORE, BEHIND };
enum bound bound_of(const struct clip *clip, uint64_t position);

/* The width of a clipped matrix in rule 1. */
uint64_t clipped_width(const struct access *access);

#endif
