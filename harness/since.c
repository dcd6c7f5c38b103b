#include "since.h"

#include <stdlib.h>
#include <string.h>

#include "files.h"
#include "grow.h"

bool open_since(const char *path, struct since *since)
{
    *since = (struct since){.now = NULL};
    if (!open_merge(&path, 1, &since->report)) {
        return false;
    }
    const struct report_in *report = &since->report.reports[0];
    if (begin_night(&since->last, &report->identity, &report->cards, &report->shard) &&
        take_merge(&since->report, &since->last) && find_night_causes(&since->last)) {
        return true;
    }
    close_since(since);
    return false;
}

void close_since(struct since *since)
{
    if (since->last.cards != NULL) {
        end_night(&since->last);
    }
    close_merge(&since->report);
    free(since->now);
    free(since->then);
    free(since->lines);
}

/* -- Comparing -------------------------------------------------------------------------------- */

/* The order of differences in both nights: by sheet, then by card. */
static int compare_differences(const struct night *one, size_t i, const struct night *other, size_t j)
{
    const struct kept_difference *first = &one->kept.differences[i], *second = &other->kept.differences[j];
    int order = strcmp(first->sheet, second->sheet);
    return order != 0 ? order : strcmp(one->cards->at[first->card], other->cards->at[second->card]);
}

/* Marks what is there in both nights, what is new, and what is there no more. */
static void mark_both(struct since *since, const struct night *night)
{
    const struct night *last = &since->last;
    size_t i = 0, j = 0;
    while (i < night->kept.count || j < last->kept.count) {
        int order = j == last->kept.count ? -1 : i == night->kept.count ? 1 : compare_differences(night, i, last, j);
        if (order < 0) {
            since->now[i++] = CHANGE_NEW;
        } else if (order > 0) {
            since->then[j++] = CHANGE_OPEN;
        } else {
            since->now[i++] = CHANGE_STILL;
            since->then[j++] = CHANGE_STILL;
        }
    }
}

/* What is there no more is mended if the card agrees on the sheet now. */
static void mark_mended(struct since *since, const struct night *night, const char *name,
                        const struct finding *findings, size_t *next)
{
    const struct kept *then = &since->last.kept;
    while (*next < then->count && strcmp(then->differences[*next].sheet, name) < 0) {
        ++*next;
    }
    for (; *next < then->count && strcmp(then->differences[*next].sheet, name) == 0; ++*next) {
        size_t card;
        const char *card_name = since->last.cards->at[then->differences[*next].card];
        if (find_in_list(night->cards, card_name, &card) && findings[card].verdict == VERDICT_AGREES) {
            since->then[*next] = CHANGE_MENDED;
        }
    }
}

/* Goes over this night's sheets for what is mended. */
static bool mark_all_mended(struct since *since, struct night *night)
{
    struct finding *findings = calloc(night->cards->count + 1, sizeof findings[0]);
    char name[NAME_ROOM];
    size_t next = 0;
    bool done = findings != NULL && rewind_kept(&night->kept);
    for (size_t i = 0; done && i < night->sheets; i++) {
        done = next_kept(&night->kept, name, findings);
        if (done) {
            mark_mended(since, night, name, findings, &next);
        }
    }
    free(findings);
    return done;
}

/* How many sheets of a card's cause have changed so. */
static size_t count_changed(const struct night *night, const unsigned char *changes, enum change change, size_t card,
                            size_t cause)
{
    size_t count = 0;
    for (size_t i = 0; find_of_cause(night, card, cause, &i); i++) {
        count += changes[i] == change;
    }
    return count;
}

static bool add_line(struct since *since, const struct change_line *line)
{
    struct change_line *lines = grow(since->lines, since->count, &since->room, sizeof lines[0]);
    if (lines == NULL) {
        return false;
    }
    since->lines = lines;
    since->lines[since->count++] = *line;
    return true;
}

/* Adds the lines of one change, by the causes of one of the nights. */
static bool add_lines(struct since *since, const struct night *night, const unsigned char *changes, enum change change)
{
    for (size_t i = 0; i < night->cards->count; i++) {
        for (size_t j = 0; j < night->causes[i].count; j++) {
            struct change_line line = {night->cards->at[i], change, &night->causes[i].at[j],
                                       count_changed(night, changes, change, i, j)};
            if (line.sheets > 0 && !add_line(since, &line)) {
                return false;
            }
        }
    }
    return true;
}

bool compare_nights(struct since *since, struct night *night)
{
    since->now = calloc(night->kept.count + 1, sizeof since->now[0]);
    since->then = calloc(since->last.kept.count + 1, sizeof since->then[0]);
    bool done = since->now != NULL && since->then != NULL;
    if (done) {
        mark_both(since, night);
    }
    done = done && mark_all_mended(since, night) && add_lines(since, night, since->now, CHANGE_NEW) &&
           add_lines(since, night, since->now, CHANGE_STILL) &&
           add_lines(since, &since->last, since->then, CHANGE_MENDED) &&
           add_lines(since, &since->last, since->then, CHANGE_OPEN);
    if (!done) {
        complain("two nights cannot be compared");
    }
    return done;
}

/* Finds a sheet's difference of a card; false if there is none. */
static bool find_difference(const struct night *night, const char *sheet, const char *card, size_t *number)
{
    size_t low = 0, high = night->kept.count;
    while (low < high) {
        size_t middle = low + (high - low) / 2;
        const struct kept_difference *difference = &night->kept.differences[middle];
        int order = strcmp(difference->sheet, sheet);
        order = order != 0 ? order : strcmp(night->cards->at[difference->card], card);
        if (order == 0) {
            *number = middle;
            return true;
        }
        *(order < 0 ? &low : &high) = order < 0 ? middle + 1 : middle;
    }
    return false;
}

const char *change_of(const struct since *since, const struct night *night, const char *sheet, size_t card)
{
    const char *name = night->cards->at[card];
    size_t number;
    if (find_difference(night, sheet, name, &number)) {
        return change_name(since->now[number]);
    }
    return find_difference(&since->last, sheet, name, &number) ? change_name(since->then[number]) : "";
}

/* -- In words --------------------------------------------------------------------------------- */

const char *change_name(unsigned change)
{
    static const char *const names[CHANGES] = {
        [CHANGE_NEW] = "new", [CHANGE_STILL] = "still", [CHANGE_MENDED] = "mended", [CHANGE_OPEN] = "open"};
    return names[change];
}

void add_change(struct text *text, const struct change_line *line)
{
    add_text(text, "%s on %zu sheet%s: ", change_name(line->change), line->sheets, plural(line->sheets));
    add_cause_name(text, line->cause);
}
