#include "judged.h"

#include <stdlib.h>

struct judged *new_judged(size_t cards)
{
    struct judged *judged = calloc(1, sizeof *judged);
    if (judged == NULL) {
        return NULL;
    }
    judged->cards = cards;
    judged->findings = calloc(cards + 1, sizeof judged->findings[0]);
    if (judged->findings == NULL) {
        free(judged);
        return NULL;
    }
    return judged;
}

void free_judged(struct judged *judged)
{
    if (judged != NULL) {
        free(judged->findings);
        free(judged->counts);
        free(judged);
    }
}

bool make_counts(struct judged *judged)
{
    size_t wanted = judged->cards * judged->census.count;
    if (wanted > judged->room) {
        uint32_t *counts = realloc(judged->counts, wanted * sizeof counts[0]);
        if (counts == NULL) {
            return false;
        }
        judged->counts = counts;
        judged->room = wanted;
    }
    return true;
}

uint32_t *counts_of(const struct judged *judged, size_t card)
{
    return judged->counts + card * judged->census.count;
}
