#include "report_in.h"

#include <inttypes.h>
#include <stdlib.h>
#include <string.h>

#include "fields.h"
#include "files.h"
#include "report_fields.h"

/* Room for keys and for words of which the tool knows all. */
enum { WORD_ROOM = 32 };

/* -- Objects and lists ------------------------------------------------------------------------ */

static bool read_numbers(struct json_in *json, const struct number_fields *fields, void *object)
{
    for (size_t i = 0; i < fields->count; i++) {
        uint32_t number;
        if ((i > 0 && !json_sign(json, ',')) || !json_key(json, fields->at[i].key) || !json_number32(json, &number)) {
            return false;
        }
        memcpy((char *)object + fields->at[i].offset, &number, sizeof number);
    }
    return true;
}

static bool read_object(struct json_in *json, const struct number_fields *fields, void *object)
{
    return json_sign(json, '{') && read_numbers(json, fields, object) && json_sign(json, '}');
}

/* Reads the sign before the next thing of a list: a comma, but before the first none. */
static bool read_comma(struct json_in *json, size_t before)
{
    return before == 0 || json_sign(json, ',');
}

/* Reads a word that is the name of one of `count` things. */
static bool read_word(struct json_in *json, const char *(*name)(unsigned), unsigned count, uint32_t *number)
{
    char word[WORD_ROOM];
    if (!json_string(json, word, sizeof word)) {
        return false;
    }
    for (*number = 0; *number < count; ++*number) {
        if (strcmp(word, name(*number)) == 0) {
            return true;
        }
    }
    return json_fail(json);
}

/* Reads a key and a text. */
static bool read_member(struct json_in *json, const char *key, char *room, size_t room_len)
{
    return json_key(json, key) && json_string(json, room, room_len);
}

/* -- The head --------------------------------------------------------------------------------- */

static bool read_identity(struct json_in *json, struct identity *identity)
{
    return json_key(json, "identity") && json_sign(json, '{') &&
           read_member(json, "name", identity->name, sizeof identity->name) && json_sign(json, ',') &&
           read_member(json, "date", identity->date, sizeof identity->date) && json_sign(json, ',') &&
           read_member(json, "version", identity->version, sizeof identity->version) && json_sign(json, ',') &&
           json_key(json, "edition") && json_number32(json, &identity->edition) && json_sign(json, ',') &&
           json_key(json, "files") && json_number32(json, &identity->files) && json_sign(json, ',') &&
           read_member(json, "digest", identity->digest, sizeof identity->digest) && json_sign(json, '}') &&
           json_sign(json, ',');
}

static bool read_shard(struct json_in *json, struct shard *shard)
{
    return json_key(json, "shard") && read_object(json, &shard_fields, shard) &&
           ((shard->part >= 1 && shard->part <= shard->parts) || json_fail(json)) && json_sign(json, ',');
}

static bool read_cards(struct json_in *json, struct list *cards)
{
    char name[NAME_ROOM];
    if (!json_key(json, "cards") || !json_sign(json, '[')) {
        return false;
    }
    while (!json_try(json, ']')) {
        if (!read_comma(json, cards->count) || !json_string(json, name, sizeof name) ||
            !add_to_list(cards, name, strlen(name))) {
            return json_fail(json);
        }
    }
    size_t count = cards->count;
    sort_list(cards);
    return json_sign(json, ',') && ((count > 0 && count == cards->count) || json_fail(json));
}

/* Reads the traits that a sort has, in their order. */
static bool read_traits(struct json_in *json, struct traits *traits)
{
    uint32_t next = 0, trait, value;
    *traits = (struct traits){{0}};
    if (!json_sign(json, '{')) {
        return false;
    }
    do {
        if (!read_word(json, trait_name, TRAITS, &trait) || !json_sign(json, ':') || !json_number32(json, &value) ||
            trait < next || value == 0 || value >= trait_values(trait)) {
            return json_fail(json);
        }
        traits->at[trait] = (uint8_t)value;
        next = trait + 1;
    } while (json_try(json, ','));
    return json_sign(json, '}');
}

static bool read_sorts(struct json_in *json, struct spectrum *spectrum)
{
    if (!json_key(json, "sorts") || !json_sign(json, '[')) {
        return false;
    }
    while (!json_try(json, ']')) {
        struct traits traits;
        size_t before = spectrum->count;
        uint32_t sort;
        if (!read_comma(json, before) || !read_traits(json, &traits) ||
            !find_spectrum_sort(spectrum, &traits, &sort) || spectrum->count == before) {
            return json_fail(json);
        }
    }
    return json_sign(json, ',');
}

/* Reads how many elements of a sort differ, and how many there are. */
static bool read_spectrum_count(struct json_in *json, struct spectrum *spectrum, size_t card)
{
    uint32_t sort;
    struct spectrum_count count;
    if (!json_sign(json, '[') || !json_number32(json, &sort) || !json_sign(json, ',') ||
        !json_number64(json, &count.differ) || !json_sign(json, ',') || !json_number64(json, &count.of) ||
        !json_sign(json, ']') || sort >= spectrum->count) {
        return json_fail(json);
    }
    struct spectrum_count *known = spectrum_count(spectrum, sort, card);
    if (known->of > 0 || count.of == 0 || count.of > UINT64_MAX / 2 || count.differ > count.of) {
        return json_fail(json);
    }
    *known = count;
    return true;
}

static bool read_spectrum(struct json_in *json, const struct list *cards, struct spectrum *spectrum)
{
    if (!json_key(json, "spectrum") || !json_sign(json, '[')) {
        return false;
    }
    for (size_t i = 0; i < cards->count; i++) {
        if (!read_comma(json, i) || !json_sign(json, '{') || !json_same_string(json, "card", cards->at[i]) ||
            !json_sign(json, ',') || !json_key(json, "counts") || !json_sign(json, '[')) {
            return false;
        }
        for (size_t before = 0; !json_try(json, ']'); before++) {
            if (!read_comma(json, before) || !read_spectrum_count(json, spectrum, i)) {
                return false;
            }
        }
        if (!json_sign(json, '}')) {
            return false;
        }
    }
    return json_sign(json, ']') && json_sign(json, ',');
}

/* The causes follow from the spectrum, and are found anew; what has changed is asked for anew. */
static bool pass_over_causes(struct json_in *json)
{
    return json_key(json, "causes") && json_skip(json) && json_sign(json, ',') && json_key(json, "since") &&
           json_skip(json) && json_sign(json, ',');
}

/* Reads up to the format; one that is not this tool's is said to be so. */
static bool read_format(struct report_in *report)
{
    struct json_in *json = &report->json;
    uint32_t format;
    if (!json_sign(json, '{') || !json_same_string(json, "report", REPORT_TITLE) || !json_sign(json, ',') ||
        !json_key(json, "format") || !json_number32(json, &format)) {
        return false;
    }
    if (format != REPORT_FORMAT) {
        complain_of(report->path, "a report of format %" PRIu32 ", and this is for format %d: make it anew", format,
                    REPORT_FORMAT);
        report->is_told = true;
        return json_fail(json);
    }
    return json_sign(json, ',');
}

/* Room for what depends on the number of cards and of sorts. */
static bool make_rooms(struct report_in *report)
{
    size_t cards = report->cards.count, sorts = report->spectrum.count;
    report->findings = calloc(cards + 1, sizeof report->findings[0]);
    report->tallies = calloc(cards + 1, sizeof report->tallies[0]);
    report->left = calloc(cards * sorts + 1, sizeof report->left[0]);
    for (size_t i = 0; report->left != NULL && i < cards * sorts; i++) {
        report->left[i] = report->spectrum.counts[i].differ;
    }
    return report->findings != NULL && report->tallies != NULL && report->left != NULL;
}

static bool read_head(struct report_in *report)
{
    struct json_in *json = &report->json;
    if (!read_format(report) || !read_identity(json, &report->identity) || !read_shard(json, &report->shard) ||
        !read_cards(json, &report->cards)) {
        return false;
    }
    report->spectrum.cards = report->cards.count;
    return read_sorts(json, &report->spectrum) && read_spectrum(json, &report->cards, &report->spectrum) &&
           pass_over_causes(json) && json_key(json, "sheets") && json_sign(json, '[') && make_rooms(report);
}

/* -- Findings --------------------------------------------------------------------------------- */

static bool read_map(struct json_in *json, struct map *map)
{
    static const char cells[] = {CELL_ELSEWHERE, CELL_AGREES, CELL_DIFFERS, '\0'};
    char row[MOONBLEAT_SIDE_MAX + 1];
    if (!json_sign(json, '[')) {
        return false;
    }
    do {
        if (map->rows == MOONBLEAT_SIDE_MAX || !json_string(json, row, sizeof row)) {
            return json_fail(json);
        }
        size_t columns = strlen(row);
        if (columns == 0 || (map->rows > 0 && columns != map->columns) || strspn(row, cells) != columns) {
            return json_fail(json);
        }
        map->columns = (uint32_t)columns;
        memcpy(map->cells + map->rows * columns, row, columns);
        map->rows++;
    } while (json_try(json, ','));
    return json_sign(json, ']');
}

static bool is_step_tag(uint32_t tag)
{
    return tag <= UINT8_MAX && field_of_tag((uint8_t)tag) != NULL;
}

static bool read_lead(struct json_in *json, const struct spectrum *spectrum, struct lead *lead)
{
    uint32_t sort;
    if (!json_sign(json, '{') || !read_numbers(json, &lead_fields, lead) || !json_sign(json, ',') ||
        !json_key(json, "sort") || !json_number32(json, &sort) || !json_sign(json, '}')) {
        return false;
    }
    if (sort >= spectrum->count || !is_step_tag(lead->tag)) {
        return json_fail(json);
    }
    lead->there = 1;
    lead->traits = spectrum->sorts[sort];
    return true;
}

/* Reads which sorts differ; each must be left over of the head's counts. */
static bool read_pairs(struct report_in *report, size_t card, struct finding *finding)
{
    struct json_in *json = &report->json;
    struct spectrum *spectrum = &report->spectrum;
    finding->sorts_at = (uint32_t)spectrum->pair_count;
    if (!json_sign(json, '[')) {
        return false;
    }
    for (finding->sorts = 0; !json_try(json, ']'); finding->sorts++) {
        uint32_t sort, differ;
        if (!read_comma(json, finding->sorts) || !json_sign(json, '[') || !json_number32(json, &sort) ||
            !json_sign(json, ',') || !json_number32(json, &differ) || !json_sign(json, ']')) {
            return false;
        }
        if (sort >= spectrum->count || differ == 0 || report->left[sort * spectrum->cards + card] < differ ||
            !add_pair(spectrum, sort, differ)) {
            return json_fail(json);
        }
        report->left[sort * spectrum->cards + card] -= differ;
    }
    return true;
}

/* Whether what was read can have been written: nothing else may be said of a card. */
static bool is_finding(const struct finding *finding)
{
    bool differs = has_difference(finding);
    bool element_is_one = finding->registers.typed == 0 || finding->registers.wants.columns > 0;
    bool step_is_one = finding->registers.given == 0 || is_step_tag(finding->registers.tag);
    return element_is_one && step_is_one && differs == (finding->verdict == VERDICT_DIFFERS) &&
           differs == (finding->sorts > 0) && (differs || finding->lead.there == 0);
}

static bool read_finding_field(struct report_in *report, const char *key, size_t card, struct finding *finding)
{
    struct json_in *json = &report->json;
    if (strcmp(key, "file") == 0) {
        return read_word(json, part_suffix, PARTS, &finding->part);
    }
    if (strcmp(key, "reason") == 0) {
        return json_string(json, finding->reason, sizeof finding->reason);
    }
    if (strcmp(key, "sorts") == 0) {
        return finding->sorts == 0 ? read_pairs(report, card, finding) : json_fail(json);
    }
    if (strcmp(key, "causes") == 0) {
        return json_skip(json);
    }
    if (strcmp(key, "lead") == 0) {
        return read_lead(json, &report->spectrum, &finding->lead);
    }
    if (strcmp(key, "memory") == 0) {
        return read_object(json, &memory_fields, &finding->memory);
    }
    if (strcmp(key, "registers") == 0) {
        return read_object(json, &register_fields, &finding->registers);
    }
    if (strcmp(key, "trace") == 0) {
        return read_object(json, &trace_fields, &finding->trace);
    }
    if (strcmp(key, "refusal") == 0) {
        return read_object(json, &claim_fields, &finding->claim);
    }
    return strcmp(key, "map") == 0 ? read_map(json, &finding->map) : json_fail(json);
}

static bool read_finding(struct report_in *report, size_t card, struct finding *finding)
{
    struct json_in *json = &report->json;
    char key[WORD_ROOM];
    *finding = (struct finding){.verdict = VERDICTS};
    if (!json_sign(json, '{') || !json_same_string(json, "card", report->cards.at[card]) || !json_sign(json, ',') ||
        !json_key(json, "verdict") || !read_word(json, verdict_name, VERDICTS, &finding->verdict)) {
        return false;
    }
    if (finding->verdict == VERDICT_REFUSED &&
        (!json_sign(json, ',') || !read_numbers(json, &refusal_fields, finding))) {
        return false;
    }
    while (json_try(json, ',')) {
        if (!json_string(json, key, sizeof key) || !json_sign(json, ':') ||
            !read_finding_field(report, key, card, finding)) {
            return false;
        }
    }
    return json_sign(json, '}') && (is_finding(finding) || json_fail(json));
}

/* Reads a sheet, which must come after the last one and be of the report's part. */
static bool read_sheet_findings(struct report_in *report)
{
    struct json_in *json = &report->json;
    char name[NAME_ROOM];
    if (!read_comma(json, report->sheets) || !json_sign(json, '{') || !read_member(json, "sheet", name, sizeof name) ||
        !json_sign(json, ',') || !json_key(json, "findings") || !json_sign(json, '[')) {
        return false;
    }
    bool in_order = report->sheets == 0 || strcmp(report->name, name) < 0;
    if (!in_order || shard_of(name, report->shard.parts) != report->shard.part) {
        return json_fail(json);
    }
    strcpy(report->name, name);
    report->spectrum.pair_count = 0;
    for (size_t i = 0; i < report->cards.count; i++) {
        if (!read_comma(json, i) || !read_finding(report, i, &report->findings[i])) {
            return false;
        }
        report->tallies[i].counts[report->findings[i].verdict]++;
        report->total.counts[report->findings[i].verdict]++;
    }
    report->sheets++;
    return json_sign(json, ']') && json_sign(json, '}');
}

/* -- The totals ------------------------------------------------------------------------------- */

static bool read_counts(struct json_in *json, const struct tally *tally)
{
    for (unsigned i = 0; i < VERDICTS; i++) {
        if (!json_sign(json, ',') || !json_same_number(json, verdict_name(i), tally->counts[i])) {
            return false;
        }
    }
    return json_sign(json, '}');
}

/* Whether the sheets have all that differs by the head. */
static bool none_is_left(const struct report_in *report)
{
    for (size_t i = 0; i < report->cards.count * report->spectrum.count; i++) {
        if (report->left[i] > 0) {
            return false;
        }
    }
    return true;
}

/* The totals must be those of the sheets: a report that was cut or patched is none. */
static bool read_totals(struct report_in *report)
{
    struct json_in *json = &report->json;
    if (!json_sign(json, ',') || !json_key(json, "totals") || !json_sign(json, '[')) {
        return false;
    }
    for (size_t i = 0; i < report->cards.count; i++) {
        if (!read_comma(json, i) || !json_sign(json, '{') || !json_same_string(json, "card", report->cards.at[i]) ||
            !read_counts(json, &report->tallies[i])) {
            return false;
        }
    }
    return json_sign(json, ']') && json_sign(json, ',') && json_key(json, "night") && json_sign(json, '{') &&
           json_same_number(json, "sheets", report->sheets) && read_counts(json, &report->total) &&
           json_sign(json, '}') && json_end(json) && (none_is_left(report) || json_fail(json));
}

/* -- The whole -------------------------------------------------------------------------------- */

/* Says where a report is faulty. */
static bool checked(const struct report_in *report, bool done)
{
    if (!done && !report->is_told) {
        complain_of(report->path, "line %zu: not a whole report of moonbleat night", report->json.line);
    }
    return done;
}

bool next_sheet(struct report_in *report)
{
    if (json_try(&report->json, ']')) {
        report->at_end = true;
        return checked(report, read_totals(report));
    }
    return checked(report, read_sheet_findings(report));
}

bool open_report(const char *path, struct report_in *report)
{
    *report = (struct report_in){.path = path, .json = {.file = open_input(path), .line = 1}};
    if (report->json.file == NULL) {
        return false;
    }
    if (checked(report, read_head(report)) && next_sheet(report)) {
        return true;
    }
    close_report(report);
    return false;
}

void close_report(struct report_in *report)
{
    close_input(report->json.file);
    free_list(&report->cards);
    free_spectrum(&report->spectrum);
    free(report->left);
    free(report->tallies);
    free(report->findings);
}
