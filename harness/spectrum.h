/* A night's spectrum, as spectrum-based fault localisation has it: how many elements of each sort each card shows, and
 * how many of them differ. */
#ifndef SPECTRUM_H
#define SPECTRUM_H

#include <stdbool.h>
#include <stddef.h>
#include <stdint.h>

#include "traits.h"

/* Elements of one sort, of one card. */
struct spectrum_count {
    uint64_t differ;
    uint64_t of;
};

/* Elements of one sort that differ on one sheet. */
struct sort_pair {
    uint32_t sort;
    uint32_t differ;
};

struct spectrum {
    size_t cards;
    struct traits *sorts; /* each once */
    size_t count;
    size_t room;
    struct spectrum_count *counts; /* for each sort, of each card */
    uint32_t *slots;               /* by hash: numbers of sorts, + 1 */
    struct sort_pair *pairs;       /* of all findings, one after the other */
    size_t pair_count;
    size_t pair_room;
};

/* All zeros but for the cards is the empty spectrum; to be freed. */
void free_spectrum(struct spectrum *spectrum);

/* Finds the number of a sort, a new one if it is not there; false if memory runs out. */
bool find_spectrum_sort(struct spectrum *spectrum, const struct traits *traits, uint32_t *sort);

/* The number of a sort that is there. */
uint32_t known_sort(const struct spectrum *spectrum, const struct traits *traits);

struct spectrum_count *spectrum_count(const struct spectrum *spectrum, size_t sort, size_t card);

/* Numbers the sorts by their traits, so that a merged night has the numbers of one that was judged at once; false if
 * memory runs out. */
bool order_spectrum(struct spectrum *spectrum);

/* Adds elements that differ to the last finding's; false if memory runs out. */
bool add_pair(struct spectrum *spectrum, uint32_t sort, uint32_t differ);

#endif
