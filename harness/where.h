/* Where the elements of a load or a store go: as a map, and one element's way rule by rule. */
#ifndef WHERE_H
#define WHERE_H

#include "outcomes.h"
#include "steps.h"
#include "translation.h"

/* A load or a store of an accepted sheet. */
struct where {
    const struct refused *asked;           /* the sheet, and the memory's length */
    const struct translation *translation; /* its masks, or why it has none */
    uint32_t number;                       /* of the step */
    struct step step;
    struct access access;
};

/* Finds the load or the store of a number in an accepted sheet; false if there is none. */
bool find_where(const struct refused *asked, const struct translation *translation, uint32_t number,
                struct where *where);

/* Whether the sheet has masks: an accepted one may have too long a tape. */
bool has_masks(const struct where *where);

/* What is said where it has none: "none, refusal 16: ..". */
struct text no_mask(const struct where *where);

/* How many elements its matrix has. */
unsigned element_count(const struct where *where);

/* Asks the library for the outcome of an element, and works out its place. The two must be the same;
 * false, with a sentence on both, if they are not, which is a fault in this tool. */
bool find_outcome(const struct where *where, unsigned element, struct told *told, struct place *place,
                  struct text *fault);

/* Prints what the step is: two lines. */
void print_step(const struct where *where);

/* Prints the map of the matrix, a cell an element, then what its signs mean, then a summary and the mask. */
void print_map(const struct where *where, const struct told *outcomes);

/* The lines of a way: the element, two of rule 1, one for each dimension of rules 2 to 4, one more of
 * rule 2, two of rule 5, the outcome, and the mask. */
enum { WAY_LINES_MAX = 3 * DIMENSIONS_MAX + 8 };

struct way {
    struct text lines[WAY_LINES_MAX];
    size_t count;
};

/* Tells the way of an element, rule by rule, to its outcome, and where the mask has it. */
void tell_way(const struct where *where, unsigned element, const struct place *place, const struct told *told,
              struct way *way);

#endif
