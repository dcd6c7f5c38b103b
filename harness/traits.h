/* The sort of an element that a card's files show: what made it, trait by trait. Cards that go wrong do so on
 * elements that have traits in common. */
#ifndef TRAITS_H
#define TRAITS_H

#include <stdbool.h>
#include <stdint.h>

#include "text.h"

/* In the order in which they are named where two tell the same. A trait that an element lacks is 0. */
enum trait {
    TRAIT_MADE,         /* by what, enum made */
    TRAIT_REMAINDER,    /* 1: a clamp mode that takes remainders brought it inside */
    TRAIT_OUTSIDE,      /* 1: an element that a store discards would go there if the store wrote on outside, */
    TRAIT_CLAMPED,      /* .. if it clamped as loads do, */
    TRAIT_UNCLIPPED,    /* .. one that it skips, if the clip did not end where it does */
    TRAIT_BLOCK,        /* of a layout with blocks, enum block */
    TRAIT_SIDE,         /* on which it lies outside, as the library numbers them */
    TRAIT_DIMENSION,    /* the first outside, + 1 */
    TRAIT_REDUCE,       /* mode of a reduce */
    TRAIT_COMBINE,      /* + 1 */
    TRAIT_MAJOR,        /* memory layout of a vector step's matrix, + 1 */
    TRAIT_PACKED,       /* 1: components of its input are packed */
    TRAIT_BIAS,         /* 1: there is one */
    TRAIT_INPUT,        /* interpretation of its input, + 1 */
    TRAIT_MATRIX,       /* kind of its matrix, + 1 */
    TRAIT_CLIP,         /* of a load's view, enum clipped */
    TRAIT_ORDER,        /* 1: a load's view permutes */
    TRAIT_STORE_CLIP,   /* the same of the store that shows the element */
    TRAIT_STORE_ORDER,
    TRAIT_START,        /* what a load that skips it starts from, enum start, + 1 */
    TRAIT_KIND,         /* of its matrix, + 1 */
    TRAIT_EDITION,
    TRAITS
};

/* What made an element: of a load its outcome, else the step. One that a store leaves out has none. */
enum made {
    MADE_SKIPPED = 1,
    MADE_FILLED,
    MADE_BY_EDGE,
    MADE_BY_REPEAT,
    MADE_BY_MIRROR,
    MADE_INSIDE,
    MADE_BY_FILL,
    MADE_BY_REDUCE,
    MADE_BY_TRANSPOSE,
    MADE_BY_MULTIPLY_ADD,
    MADE_BY_VECTOR,
    MADE_APART,                /* no element, from here on: */
    MADE_BY_NONE = MADE_APART, /* a byte or a register that no step writes */
    MADE_IN_TRACE,             /* an access of a trace */
    MADE_BY_REFUSAL,
    MADES
};

/* The shadows that elements cast which a store leaves out: traits from TRAIT_OUTSIDE on of what lies there. */
enum shadow { SHADOW_OUTSIDE, SHADOW_CLAMPED, SHADOW_UNCLIPPED, SHADOWS };

enum block { BLOCK_START = 1, BLOCK_AMID, BLOCKS };

/* Which part of a matrix a view takes. */
enum clipped { CLIP_WHOLE = 1, CLIP_ROWS, CLIP_COLUMNS, CLIPS };

struct traits {
    uint8_t at[TRAITS];
};

/* Whether an element has all traits that a pattern names; those that are 0 in the pattern are left open. */
bool has_traits(const struct traits *traits, const struct traits *pattern);

unsigned count_traits(const struct traits *traits);

/* Whether this is no sort of elements, but of what differs besides: it has nothing in common with elements. */
bool is_apart(const struct traits *traits);

/* The key of a trait, and how many values it has, 0 among them. */
const char *trait_name(unsigned trait);
unsigned trait_values(unsigned trait);

/* Adds what elements have in common: "elements that MirrorRepeat clamps below", "elements of a reduce by row with
 * add". */
void add_pattern(struct text *text, const struct traits *pattern);

/* Adds what differs besides, behind a count: "places that no step writes", "traces", "refusals". */
void add_apart(struct text *text, const struct traits *traits, size_t count);

/* Adds how one element was made, behind its step: ", which MirrorRepeat clamps below in dimension 0"; nothing where
 * the step says it all. */
void add_making(struct text *text, const struct traits *traits);

#endif
