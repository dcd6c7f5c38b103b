#include "spectrum.h"

#include <stdlib.h>
#include <string.h>

#include "grow.h"
#include "hash.h"

/* The room for sorts that a spectrum gets first; the hash has twice as many slots as there is room for sorts. */
enum { FIRST_ROOM = 64, SLOTS_PER_SORT = 2 };

void free_spectrum(struct spectrum *spectrum)
{
    free(spectrum->sorts);
    free(spectrum->counts);
    free(spectrum->slots);
    free(spectrum->pairs);
    *spectrum = (struct spectrum){.cards = spectrum->cards};
}

/* The slot that has a sort, or the free one where it belongs. */
static uint32_t *find_slot(const struct spectrum *spectrum, const struct traits *traits)
{
    size_t slots = SLOTS_PER_SORT * spectrum->room;
    size_t i = hash_bytes(HASH_START, traits->at, sizeof traits->at) % slots;
    while (spectrum->slots[i] != 0 &&
           memcmp(&spectrum->sorts[spectrum->slots[i] - 1], traits, sizeof *traits) != 0) {
        i = (i + 1) % slots;
    }
    return &spectrum->slots[i];
}

/* Makes room for twice as many sorts. */
static bool make_room(struct spectrum *spectrum)
{
    size_t room = spectrum->room == 0 ? FIRST_ROOM : 2 * spectrum->room;
    struct traits *sorts = realloc(spectrum->sorts, room * sizeof sorts[0]);
    spectrum->sorts = sorts == NULL ? spectrum->sorts : sorts;
    struct spectrum_count *counts = realloc(spectrum->counts, room * spectrum->cards * sizeof counts[0]);
    spectrum->counts = counts == NULL ? spectrum->counts : counts;
    uint32_t *slots = calloc(SLOTS_PER_SORT * room, sizeof slots[0]);
    if (sorts == NULL || counts == NULL || slots == NULL) {
        free(slots);
        return false;
    }
    free(spectrum->slots);
    spectrum->slots = slots;
    spectrum->room = room;
    for (size_t i = 0; i < spectrum->count; i++) {
        *find_slot(spectrum, &sorts[i]) = (uint32_t)(i + 1);
    }
    return true;
}

bool find_spectrum_sort(struct spectrum *spectrum, const struct traits *traits, uint32_t *sort)
{
    if (spectrum->count == spectrum->room && !make_room(spectrum)) {
        return false;
    }
    uint32_t *slot = find_slot(spectrum, traits);
    if (*slot == 0) {
        spectrum->sorts[spectrum->count] = *traits;
        memset(spectrum_count(spectrum, spectrum->count, 0), 0, spectrum->cards * sizeof spectrum->counts[0]);
        *slot = (uint32_t)++spectrum->count;
    }
    *sort = *slot - 1;
    return true;
}

uint32_t known_sort(const struct spectrum *spectrum, const struct traits *traits)
{
    return *find_slot(spectrum, traits) - 1;
}

struct spectrum_count *spectrum_count(const struct spectrum *spectrum, size_t sort, size_t card)
{
    return &spectrum->counts[sort * spectrum->cards + card];
}

bool add_pair(struct spectrum *spectrum, uint32_t sort, uint32_t differ)
{
    struct sort_pair *pairs = grow(spectrum->pairs, spectrum->pair_count, &spectrum->pair_room, sizeof pairs[0]);
    if (pairs == NULL) {
        return false;
    }
    spectrum->pairs = pairs;
    spectrum->pairs[spectrum->pair_count++] = (struct sort_pair){sort, differ};
    return true;
}

/* -- The order -------------------------------------------------------------------------------- */

struct numbered {
    struct traits traits;
    size_t number;
};

static int compare_numbered(const void *one, const void *other)
{
    return memcmp(&((const struct numbered *)one)->traits, &((const struct numbered *)other)->traits,
                  sizeof(struct traits));
}

/* Moves sorts and counts to their new numbers, and notes these by the old ones. */
static void move_sorts(struct spectrum *spectrum, const struct numbered *order, const struct spectrum_count *counts,
                       uint32_t *numbers)
{
    for (size_t i = 0; i < spectrum->count; i++) {
        spectrum->sorts[i] = order[i].traits;
        memcpy(spectrum_count(spectrum, i, 0), counts + order[i].number * spectrum->cards,
               spectrum->cards * sizeof counts[0]);
        numbers[order[i].number] = (uint32_t)i;
    }
    for (size_t i = 0; i < spectrum->pair_count; i++) {
        spectrum->pairs[i].sort = numbers[spectrum->pairs[i].sort];
    }
    for (size_t i = 0; i < SLOTS_PER_SORT * spectrum->room; i++) {
        spectrum->slots[i] = spectrum->slots[i] == 0 ? 0 : numbers[spectrum->slots[i] - 1] + 1;
    }
}

bool order_spectrum(struct spectrum *spectrum)
{
    size_t count = spectrum->count, size = count * spectrum->cards * sizeof spectrum->counts[0];
    struct numbered *order = calloc(count + 1, sizeof order[0]);
    struct spectrum_count *counts = malloc(size + 1);
    uint32_t *numbers = calloc(count + 1, sizeof numbers[0]);
    bool done = order != NULL && counts != NULL && numbers != NULL;
    if (done && count > 0) {
        for (size_t i = 0; i < count; i++) {
            order[i] = (struct numbered){spectrum->sorts[i], i};
        }
        memcpy(counts, spectrum->counts, size);
        qsort(order, count, sizeof order[0], compare_numbered);
        move_sorts(spectrum, order, counts, numbers);
    }
    free(order);
    free(counts);
    free(numbers);
    return done;
}
