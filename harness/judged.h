/* What is found on one sheet, for every card. */
#ifndef JUDGED_H
#define JUDGED_H

#include <stdbool.h>
#include <stddef.h>
#include <stdint.h>

#include "finding.h"
#include "shown.h"

struct judged {
    size_t cards;
    struct finding *findings; /* for each card */
    struct census census;
    uint32_t *counts; /* for each card that differs, and each sort of the census: how many elements differ */
    size_t room;
};

/* NULL if memory runs out. */
struct judged *new_judged(size_t cards);
void free_judged(struct judged *judged);

/* Makes room for the counts of a census that is known; false if memory runs out. */
bool make_counts(struct judged *judged);

uint32_t *counts_of(const struct judged *judged, size_t card);

#endif
