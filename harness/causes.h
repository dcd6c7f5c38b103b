/* What the differing elements of a card have in common: the sorts that best tell them from those that agree. */
#ifndef CAUSES_H
#define CAUSES_H

#include <stdbool.h>
#include <stddef.h>
#include <stdint.h>

#include "spectrum.h"
#include "text.h"

/* Elements that have traits in common, among those that no earlier cause of the card has. */
struct cause {
    struct traits pattern; /* all zeros: nothing explains what differs */
    uint64_t differ;
    uint64_t of;
    uint64_t others_differ;
    uint64_t others;
    double ochiai; /* differ / sqrt(all that differ * of) */
};

/* The causes of a card, the best first. */
struct causes {
    struct cause *at;
    size_t count;
    size_t room;
};

/* Finds them; false if memory runs out. To be freed. */
bool find_causes(const struct spectrum *spectrum, size_t card, struct causes *causes);
void free_causes(struct causes *causes);

/* The number of the cause that has the elements of a sort; the last has what is left. */
size_t cause_of(const struct causes *causes, const struct traits *sort);

/* Whether a cause says what its elements have in common. */
bool does_explain(const struct cause *cause);

/* Adds the name of a cause: "elements that MirrorRepeat clamps", or "unexplained". */
void add_cause_name(struct text *text, const struct cause *cause);

/* Adds "960 of 960 elements that MirrorRepeat clamps differ, 0 of 2,300 others". */
void add_cause(struct text *text, const struct cause *cause);

#endif
