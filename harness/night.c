#include "night.h"

#include <stdlib.h>

#include "files.h"

bool begin_night(struct night *night, const struct identity *identity, const struct list *cards,
                 const struct shard *shard)
{
    *night = (struct night){
        .identity = *identity,
        .cards = cards,
        .shard = *shard,
        .spectrum = {.cards = cards->count},
    };
    night->tallies = calloc(cards->count + 1, sizeof night->tallies[0]);
    night->causes = calloc(cards->count + 1, sizeof night->causes[0]);
    if (night->tallies == NULL || night->causes == NULL) {
        complain("a night");
        end_night(night);
        return false;
    }
    if (!begin_kept(&night->kept, cards->count)) {
        end_night(night);
        return false;
    }
    return true;
}

void end_night(struct night *night)
{
    for (size_t i = 0; night->causes != NULL && i < night->cards->count; i++) {
        free_causes(&night->causes[i]);
    }
    free(night->causes);
    free(night->tallies);
    free_spectrum(&night->spectrum);
    end_kept(&night->kept);
    *night = (struct night){.cards = NULL};
}

/* -- Sheets ----------------------------------------------------------------------------------- */

/* Adds a sort's elements of one sheet to the spectrum, for every card that shows them. */
static bool add_sort(struct spectrum *spectrum, struct judged *judged, uint32_t number)
{
    const struct sort_count *sort = &judged->census.at[number];
    uint32_t found;
    if (!find_spectrum_sort(spectrum, &sort->traits, &found)) {
        return false;
    }
    for (size_t i = 0; i < judged->cards; i++) {
        const struct finding *finding = &judged->findings[i];
        uint32_t differ = finding->verdict == VERDICT_DIFFERS ? counts_of(judged, i)[number] : 0;
        struct spectrum_count *count = spectrum_count(spectrum, found, i);
        count->differ += differ;
        count->of += (finding->shows & SHOWS_MEMORY) != 0 ? sort->memory : 0;
        count->of += (finding->shows & SHOWS_REGISTERS) != 0 ? sort->registers : 0;
        count->of += number < APARTS ? differ : 0;
    }
    return true;
}

/* Puts the sorts by which a card differs behind the pairs of the spectrum. */
static bool add_pairs(struct spectrum *spectrum, const struct judged *judged, size_t card)
{
    struct finding *finding = &judged->findings[card];
    finding->sorts_at = (uint32_t)spectrum->pair_count;
    for (uint32_t i = 0; finding->verdict == VERDICT_DIFFERS && i < judged->census.count; i++) {
        uint32_t differ = counts_of(judged, card)[i], sort;
        if (differ > 0 && !(find_spectrum_sort(spectrum, &judged->census.at[i].traits, &sort) &&
                            add_pair(spectrum, sort, differ))) {
            return false;
        }
    }
    finding->sorts = (uint32_t)spectrum->pair_count - finding->sorts_at;
    return true;
}

bool take_judged(struct night *night, const char *name, struct judged *judged)
{
    bool done = true;
    for (uint32_t i = 0; done && i < judged->census.count; i++) {
        done = add_sort(&night->spectrum, judged, i);
    }
    for (size_t i = 0; done && i < judged->cards; i++) {
        done = add_pairs(&night->spectrum, judged, i);
    }
    if (!done) {
        complain("a night");
        return false;
    }
    return take_findings(night, name, judged->findings);
}

bool take_findings(struct night *night, const char *name, const struct finding *findings)
{
    night->sheets++;
    for (size_t i = 0; i < night->cards->count; i++) {
        night->tallies[i].counts[findings[i].verdict]++;
        night->total.counts[findings[i].verdict]++;
    }
    return keep_sheet(&night->kept, name, findings);
}

/* -- Causes ----------------------------------------------------------------------------------- */

bool find_night_causes(struct night *night)
{
    bool done = order_spectrum(&night->spectrum);
    for (size_t i = 0; done && i < night->cards->count; i++) {
        done = find_causes(&night->spectrum, i, &night->causes[i]);
    }
    if (!done) {
        complain("a night");
    }
    return done;
}

static bool sorts_have_cause(const struct night *night, uint32_t first, uint32_t count, size_t card, size_t cause)
{
    const struct spectrum *spectrum = &night->spectrum;
    for (uint32_t i = first; i < first + count; i++) {
        if (cause_of(&night->causes[card], &spectrum->sorts[spectrum->pairs[i].sort]) == cause) {
            return true;
        }
    }
    return false;
}

bool has_cause(const struct night *night, const struct finding *finding, size_t card, size_t cause)
{
    return sorts_have_cause(night, finding->sorts_at, finding->sorts, card, cause);
}

bool find_of_cause(const struct night *night, size_t card, size_t cause, size_t *number)
{
    for (; *number < night->kept.count; ++*number) {
        const struct kept_difference *difference = &night->kept.differences[*number];
        if (difference->card == card &&
            sorts_have_cause(night, difference->sorts_at, difference->sorts, card, cause)) {
            return true;
        }
    }
    return false;
}

const struct kept_difference *find_example(const struct night *night, size_t card, size_t cause)
{
    const struct kept_difference *found = NULL;
    for (size_t i = 0; find_of_cause(night, card, cause, &i); i++) {
        const struct kept_difference *difference = &night->kept.differences[i];
        if (count_traits(&difference->lead) > 0 && cause_of(&night->causes[card], &difference->lead) == cause) {
            return difference;
        }
        found = found == NULL ? difference : found;
    }
    return found;
}

void add_headline(struct text *text, const struct night *night, size_t card, size_t cause)
{
    size_t sheets = 0;
    for (size_t i = 0; find_of_cause(night, card, cause, &i); i++) {
        sheets++;
    }
    add_text(text, "%zu sheet%s, ", sheets, plural(sheets));
    add_cause(text, &night->causes[card].at[cause]);
}

bool show_cause(struct night *night, size_t card, size_t cause, struct shown_cause *shown)
{
    const struct kept_difference *example = find_example(night, card, cause);
    shown->headline = (struct text){.len = 0};
    shown->sheet = example->sheet;
    add_headline(&shown->headline, night, card, cause);
    return get_kept(&night->kept, example, &shown->finding);
}
