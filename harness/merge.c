#include "merge.h"

#include <inttypes.h>
#include <stdlib.h>
#include <string.h>

#include "files.h"
#include "names.h"

/* How many of the reports are a part. */
static size_t count_part(const struct merge *merge, uint32_t part)
{
    size_t count = 0;
    for (size_t i = 0; i < merge->count; i++) {
        count += merge->reports[i].shard.part == part;
    }
    return count;
}

/* Whether each part is there once; of more parts than reports an early one is missing. */
static bool has_all_parts(const struct merge *merge)
{
    uint32_t parts = merge->reports[0].shard.parts;
    for (uint32_t part = 1; part <= parts; part++) {
        size_t count = count_part(merge, part);
        if (count != 1) {
            fprintf(stderr, "moonbleat: part %" PRIu32 " of %" PRIu32 " is %s\n", part, parts,
                    count == 0 ? "missing" : "given twice");
            return false;
        }
    }
    return true;
}

static bool same_cards(const struct list *one, const struct list *other)
{
    bool same = one->count == other->count;
    for (size_t i = 0; same && i < one->count; i++) {
        same = strcmp(one->at[i], other->at[i]) == 0;
    }
    return same;
}

/* Whether a report can be a part of the first one's night. */
static bool fits(const struct report_in *report, const struct report_in *first)
{
    const struct shard *shard = &report->shard;
    if (shard->parts != first->shard.parts) {
        complain_of(report->path, "part %" PRIu32 " of %" PRIu32 ", but %s is one of %" PRIu32, shard->part,
                    shard->parts, shown(first->path).at, first->shard.parts);
        return false;
    }
    const char *member = identities_differ(&report->identity, &first->identity);
    if (member != NULL) {
        complain_of(report->path, "its night has another %s than that of %s: parts of two nights are not merged",
                    member, shown(first->path).at);
        return false;
    }
    if (!same_cards(&report->cards, &first->cards)) {
        complain_of(report->path, "its cards are not those of %s", shown(first->path).at);
        return false;
    }
    return true;
}

static bool open_reports(const char *const *paths, size_t count, struct merge *merge)
{
    for (; merge->count < count; merge->count++) {
        struct report_in *report = &merge->reports[merge->count];
        if (!open_report(paths[merge->count], report)) {
            return false;
        }
        if (!fits(report, &merge->reports[0])) {
            merge->count++;
            return false;
        }
    }
    return has_all_parts(merge);
}

bool open_merge(const char *const *paths, size_t count, struct merge *merge)
{
    *merge = (struct merge){calloc(count, sizeof merge->reports[0]), 0};
    if (merge->reports == NULL) {
        complain(paths[0]);
        return false;
    }
    bool done = open_reports(paths, count, merge);
    if (!done) {
        close_merge(merge);
    }
    return done;
}

/* The number that a card of the night has in a report. */
static size_t card_in(const struct report_in *report, const struct night *night, size_t card)
{
    size_t number;
    find_in_list(&report->cards, night->cards->at[card], &number);
    return number;
}

/* Adds the counts of a report's head to the night's. */
static bool add_counts(const struct report_in *report, struct night *night)
{
    for (size_t i = 0; i < report->spectrum.count; i++) {
        uint32_t sort;
        if (!find_spectrum_sort(&night->spectrum, &report->spectrum.sorts[i], &sort)) {
            return false;
        }
        for (size_t card = 0; card < night->cards->count; card++) {
            const struct spectrum_count *added = spectrum_count(&report->spectrum, i, card_in(report, night, card));
            struct spectrum_count *count = spectrum_count(&night->spectrum, sort, card);
            count->differ += added->differ;
            count->of += added->of;
        }
    }
    return true;
}

/* Gives a finding's sorts the numbers that they have in the night. */
static bool renumber(const struct report_in *report, struct finding *finding, struct spectrum *spectrum)
{
    const struct sort_pair *pairs = report->spectrum.pairs + finding->sorts_at;
    uint32_t first = (uint32_t)spectrum->pair_count;
    for (uint32_t i = 0; i < finding->sorts; i++) {
        uint32_t sort = known_sort(spectrum, &report->spectrum.sorts[pairs[i].sort]);
        if (!add_pair(spectrum, sort, pairs[i].differ)) {
            return false;
        }
    }
    finding->sorts_at = first;
    return true;
}

/* The report that has the next sheet, NULL if none is left. */
static struct report_in *next_report(const struct merge *merge)
{
    struct report_in *next = NULL;
    for (size_t i = 0; i < merge->count; i++) {
        struct report_in *report = &merge->reports[i];
        if (!report->at_end && (next == NULL || strcmp(report->name, next->name) < 0)) {
            next = report;
        }
    }
    return next;
}

static bool take_report_sheet(struct report_in *report, struct night *night, struct finding *findings)
{
    for (size_t i = 0; i < night->cards->count; i++) {
        findings[i] = report->findings[card_in(report, night, i)];
        if (!renumber(report, &findings[i], &night->spectrum)) {
            complain(report->path);
            return false;
        }
    }
    return take_findings(night, report->name, findings) && next_sheet(report);
}

bool take_merge(const struct merge *merge, struct night *night)
{
    struct finding *findings = calloc(night->cards->count + 1, sizeof findings[0]);
    bool done = findings != NULL;
    for (size_t i = 0; done && i < merge->count; i++) {
        done = add_counts(&merge->reports[i], night);
    }
    if (!done) {
        complain(merge->reports[0].path);
    }
    for (struct report_in *next = next_report(merge); done && next != NULL; next = next_report(merge)) {
        done = take_report_sheet(next, night, findings);
    }
    free(findings);
    return done;
}

void close_merge(struct merge *merge)
{
    for (size_t i = 0; i < merge->count; i++) {
        close_report(&merge->reports[i]);
    }
    free(merge->reports);
}
