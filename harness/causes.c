#include "causes.h"

#include <inttypes.h>
#include <math.h>
#include <stdlib.h>
#include <string.h>

#include "grow.h"

/* A sort explains what differs if its coefficient is at least this, and its elements differ at least so many times as
 * often as the others. */
static const double OCHIAI_MIN = 0.3;
enum { TIMES = 2 };

/* A pattern names at most so many traits, and so many only if what made the element is one of them. */
enum { PATTERN_TRAITS = 3 };

/* Elements that one pattern or one sort has. */
struct cell {
    struct traits traits;
    uint64_t differ;
    uint64_t of;
};

struct cells {
    struct cell *at;
    size_t count;
};

/* -- The best pattern ------------------------------------------------------------------------- */

static int compare_cells(const void *one, const void *other)
{
    return memcmp(&((const struct cell *)one)->traits, &((const struct cell *)other)->traits, sizeof(struct traits));
}

/* Ochiai's coefficient, squared, times the number of all elements that differ, which is the same for all patterns. */
static double score(const struct cell *cell)
{
    return (double)cell->differ * (double)cell->differ / (double)cell->of;
}

/* Of two patterns that tell the same: the one with fewer traits, then the one whose traits come first. */
static bool is_simpler(const struct traits *one, const struct traits *other)
{
    const unsigned counts[] = {count_traits(one), count_traits(other)};
    for (unsigned i = 0; counts[0] == counts[1] && i < TRAITS; i++) {
        if ((one->at[i] != 0) != (other->at[i] != 0)) {
            return one->at[i] != 0;
        }
    }
    return counts[0] < counts[1] || (counts[0] == counts[1] && memcmp(one, other, sizeof *one) < 0);
}

static void keep_better(const struct cell *cell, struct cell *best)
{
    const double scores[] = {score(cell), best->of == 0 ? 0 : score(best)};
    if (cell->differ > 0 &&
        (scores[0] > scores[1] || (scores[0] == scores[1] && is_simpler(&cell->traits, &best->traits)))) {
        *best = *cell;
    }
}

/* Tries all patterns that name these traits. `room` has as many cells as there are sorts. */
static void try_traits(const struct cells *sorts, const unsigned *traits, size_t trait_count, struct cell *room,
                       struct cell *best)
{
    size_t count = 0;
    for (size_t i = 0; i < sorts->count; i++) {
        struct cell *cell = &room[count];
        bool has_all = true;
        *cell = (struct cell){.differ = sorts->at[i].differ, .of = sorts->at[i].of};
        for (size_t j = 0; j < trait_count; j++) {
            cell->traits.at[traits[j]] = sorts->at[i].traits.at[traits[j]];
            has_all = has_all && cell->traits.at[traits[j]] != 0;
        }
        count += has_all;
    }
    qsort(room, count, sizeof room[0], compare_cells);
    for (size_t i = 0; i < count;) {
        struct cell sum = room[i++];
        for (; i < count && compare_cells(&sum, &room[i]) == 0; i++) {
            sum.differ += room[i].differ;
            sum.of += room[i].of;
        }
        keep_better(&sum, best);
    }
}

static void find_best(const struct cells *sorts, struct cell *room, struct cell *best)
{
    *best = (struct cell){.of = 0};
    for (unsigned a = 0; a < TRAITS; a++) {
        try_traits(sorts, (unsigned[]){a}, 1, room, best);
        for (unsigned b = a + 1; b < TRAITS; b++) {
            try_traits(sorts, (unsigned[]){a, b}, 2, room, best);
            for (unsigned c = b + 1; a == TRAIT_MADE && c < TRAITS; c++) {
                try_traits(sorts, (unsigned[]){a, b, c}, PATTERN_TRAITS, room, best);
            }
        }
    }
}

/* -- The causes ------------------------------------------------------------------------------- */

static struct cell sum_of(const struct cells *sorts)
{
    struct cell sum = {.of = 0};
    for (size_t i = 0; i < sorts->count; i++) {
        sum.differ += sorts->at[i].differ;
        sum.of += sorts->at[i].of;
    }
    return sum;
}

static struct cause cause_from(const struct cell *cell, const struct cell *sum)
{
    return (struct cause){
        .pattern = cell->traits,
        .differ = cell->differ,
        .of = cell->of,
        .others_differ = sum->differ - cell->differ,
        .others = sum->of - cell->of,
        .ochiai = sqrt(score(cell) / (double)sum->differ),
    };
}

static bool explains(const struct cause *cause)
{
    return cause->ochiai >= OCHIAI_MIN &&
           (double)cause->differ * (double)cause->others >= TIMES * (double)cause->others_differ * (double)cause->of;
}

static bool add_cause_to(struct causes *causes, const struct cause *cause)
{
    struct cause *at = grow(causes->at, causes->count, &causes->room, sizeof at[0]);
    if (at == NULL) {
        return false;
    }
    causes->at = at;
    causes->at[causes->count++] = *cause;
    return true;
}

/* Takes the sorts away that a pattern has. */
static void remove_sorts(struct cells *sorts, const struct traits *pattern)
{
    size_t kept = 0;
    for (size_t i = 0; i < sorts->count; i++) {
        if (!has_traits(&sorts->at[i].traits, pattern)) {
            sorts->at[kept++] = sorts->at[i];
        }
    }
    sorts->count = kept;
}

/* One cause after the other, each of what the ones before it leave. */
static bool add_causes(struct cells *sorts, struct cell *room, struct causes *causes)
{
    for (struct cell sum = sum_of(sorts); sum.differ > 0; sum = sum_of(sorts)) {
        struct cell best;
        find_best(sorts, room, &best);
        struct cause cause = cause_from(&best, &sum);
        if (!explains(&cause)) {
            sum.traits = (struct traits){{0}};
            cause = cause_from(&sum, &sum);
        }
        if (!add_cause_to(causes, &cause)) {
            return false;
        }
        remove_sorts(sorts, &cause.pattern);
    }
    return true;
}

/* The sorts that a card shows, and those that are apart. */
static void take_sorts(const struct spectrum *spectrum, size_t card, struct cells *sorts, struct cells *apart)
{
    for (size_t i = 0; i < spectrum->count; i++) {
        const struct spectrum_count *count = spectrum_count(spectrum, i, card);
        struct cell cell = {spectrum->sorts[i], count->differ, count->of};
        struct cells *cells = is_apart(&cell.traits) ? apart : sorts;
        if (cell.of > 0) {
            cells->at[cells->count++] = cell;
        }
    }
}

bool find_causes(const struct spectrum *spectrum, size_t card, struct causes *causes)
{
    struct cell aparts[MADES - MADE_APART];
    struct cells sorts = {calloc(spectrum->count + 1, sizeof(struct cell)), 0}, apart = {aparts, 0};
    struct cell *room = calloc(spectrum->count + 1, sizeof room[0]);
    *causes = (struct causes){NULL, 0, 0};
    bool done = sorts.at != NULL && room != NULL;
    if (done) {
        take_sorts(spectrum, card, &sorts, &apart);
        done = add_causes(&sorts, room, causes);
    }
    for (size_t i = 0; done && i < apart.count; i++) {
        struct cause cause = cause_from(&aparts[i], &aparts[i]);
        done = add_cause_to(causes, &cause);
    }
    free(sorts.at);
    free(room);
    return done;
}

void free_causes(struct causes *causes)
{
    free(causes->at);
    *causes = (struct causes){NULL, 0, 0};
}

size_t cause_of(const struct causes *causes, const struct traits *sort)
{
    size_t i = 0;
    while (i + 1 < causes->count && (is_apart(sort) != is_apart(&causes->at[i].pattern) ||
                                     !has_traits(sort, &causes->at[i].pattern))) {
        i++;
    }
    return i;
}

bool does_explain(const struct cause *cause)
{
    return count_traits(&cause->pattern) > 0;
}

/* -- In words --------------------------------------------------------------------------------- */

enum { THOUSAND = 1000 };

/* Adds a number with a comma before each three digits. */
static void add_grouped(struct text *text, uint64_t number)
{
    if (number >= THOUSAND) {
        add_grouped(text, number / THOUSAND);
        add_text(text, ",%03" PRIu64, number % THOUSAND);
    } else {
        add_text(text, "%" PRIu64, number);
    }
}

static void add_share(struct text *text, uint64_t differ, uint64_t of)
{
    add_grouped(text, differ);
    add_text(text, " of ");
    add_grouped(text, of);
}

void add_cause_name(struct text *text, const struct cause *cause)
{
    if (does_explain(cause)) {
        add_pattern(text, &cause->pattern);
    } else {
        add_text(text, "unexplained");
    }
}

void add_cause(struct text *text, const struct cause *cause)
{
    if (is_apart(&cause->pattern)) {
        add_grouped(text, cause->differ);
        add_text(text, " ");
        add_apart(text, &cause->pattern, cause->differ);
        add_text(text, " differ%s", cause->differ == 1 ? "s" : "");
        return;
    }
    add_share(text, cause->differ, cause->of);
    if (does_explain(cause)) {
        add_text(text, " ");
        add_pattern(text, &cause->pattern);
        add_text(text, " differ, ");
        add_share(text, cause->others_differ, cause->others);
        add_text(text, " others");
    } else {
        add_text(text, " elements differ, and nothing explains it");
    }
}
