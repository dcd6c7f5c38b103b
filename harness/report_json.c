/* The report in JSON; report_in.h reads it again. */
#include <inttypes.h>
#include <string.h>

#include "report.h"
#include "report_fields.h"
#include "since.h"

static void put_numbers(FILE *file, const struct number_fields *fields, const void *object)
{
    for (size_t i = 0; i < fields->count; i++) {
        uint32_t number;
        memcpy(&number, (const char *)object + fields->at[i].offset, sizeof number);
        fprintf(file, "%s\"%s\": %" PRIu32, i == 0 ? "" : ", ", fields->at[i].key, number);
    }
}

/* What stands between the things of a list: nothing before the first. */
static const char *comma(size_t before)
{
    return before == 0 ? "" : ",";
}

/* A key and a text. */
static void put_member(FILE *file, const char *key, const char *text)
{
    fprintf(file, "\"%s\": ", key);
    put_json(file, text);
}

/* -- The head --------------------------------------------------------------------------------- */

static void put_identity(FILE *file, const struct identity *identity)
{
    fputs(" \"identity\": {", file);
    put_member(file, "name", identity->name);
    fputs(", ", file);
    put_member(file, "date", identity->date);
    fputs(", ", file);
    put_member(file, "version", identity->version);
    fprintf(file, ", \"edition\": %" PRIu32 ", \"files\": %" PRIu32 ", ", identity->edition, identity->files);
    put_member(file, "digest", identity->digest);
    fputs("},\n", file);
}

/* The traits that there are, by their keys. */
static void put_traits(FILE *file, const struct traits *traits)
{
    const char *mark = "{";
    for (unsigned i = 0; i < TRAITS; i++) {
        if (traits->at[i] != 0) {
            fprintf(file, "%s\"%s\": %u", mark, trait_name(i), (unsigned)traits->at[i]);
            mark = ", ";
        }
    }
    fputs(*mark == '{' ? "{}" : "}", file);
}

static void put_sorts(FILE *file, const struct spectrum *spectrum)
{
    fputs(" \"sorts\": [", file);
    for (size_t i = 0; i < spectrum->count; i++) {
        fprintf(file, "%s\n  ", comma(i));
        put_traits(file, &spectrum->sorts[i]);
    }
    fputs("],\n", file);
}

/* Of each card: sort, elements that differ, elements. */
static void put_spectrum(FILE *file, const struct night *night)
{
    fputs(" \"spectrum\": [", file);
    for (size_t i = 0; i < night->cards->count; i++) {
        size_t before = 0;
        fprintf(file, "%s\n  {", comma(i));
        put_member(file, "card", night->cards->at[i]);
        fputs(", \"counts\": [", file);
        for (size_t j = 0; j < night->spectrum.count; j++) {
            const struct spectrum_count *count = spectrum_count(&night->spectrum, j, i);
            if (count->of > 0) {
                fprintf(file, "%s[%zu, %" PRIu64 ", %" PRIu64 "]", comma(before++), j, count->differ, count->of);
            }
        }
        fputs("]}", file);
    }
    fputs("],\n", file);
}

static void put_cause(FILE *file, const struct night *night, size_t card, size_t number)
{
    const struct cause *cause = &night->causes[card].at[number];
    struct text name = {.len = 0}, headline = {.len = 0};
    size_t before = 0;
    add_cause_name(&name, cause);
    add_headline(&headline, night, card, number);
    fputs("\n   {", file);
    put_member(file, "cause", name.at);
    fputs(", ", file);
    put_member(file, "headline", headline.at);
    fputs(", \"traits\": ", file);
    put_traits(file, &cause->pattern);
    fprintf(file,
            ", \"differ\": %" PRIu64 ", \"of\": %" PRIu64 ", \"others_differ\": %" PRIu64 ", \"others\": %" PRIu64
            ", \"ochiai\": %.4f, ",
            cause->differ, cause->of, cause->others_differ, cause->others, cause->ochiai);
    put_member(file, "example", find_example(night, card, number)->sheet);
    fputs(", \"sheets\": [", file);
    for (size_t i = 0; find_of_cause(night, card, number, &i); i++) {
        fputs(comma(before++), file);
        put_json(file, night->kept.differences[i].sheet);
    }
    fputs("]}", file);
}

static void put_causes(FILE *file, const struct night *night)
{
    fputs(" \"causes\": [", file);
    for (size_t i = 0; i < night->cards->count; i++) {
        fprintf(file, "%s\n  {", comma(i));
        put_member(file, "card", night->cards->at[i]);
        fputs(", \"causes\": [", file);
        for (size_t j = 0; j < night->causes[i].count; j++) {
            fputs(comma(j), file);
            put_cause(file, night, i, j);
        }
        fputs("]}", file);
    }
    fputs("],\n", file);
}

/* What has changed since another night; null where it is not asked for. */
static void put_since(FILE *file, const struct since *since)
{
    fputs(" \"since\": ", file);
    if (since == NULL) {
        fputs("null,\n", file);
        return;
    }
    putc('{', file);
    put_member(file, "name", since->last.identity.name);
    fputs(", ", file);
    put_member(file, "date", since->last.identity.date);
    fputs(", \"changes\": [", file);
    for (size_t i = 0; i < since->count; i++) {
        const struct change_line *line = &since->lines[i];
        struct text cause = {.len = 0};
        add_cause_name(&cause, line->cause);
        fprintf(file, "%s\n  {", comma(i));
        put_member(file, "card", line->card);
        fprintf(file, ", \"change\": \"%s\", \"sheets\": %zu, ", change_name(line->change), line->sheets);
        put_member(file, "cause", cause.at);
        putc('}', file);
    }
    fputs("]},\n", file);
}

static bool begin_json(FILE *file, struct night *night)
{
    fprintf(file, "{\"report\": \"%s\",\n \"format\": %d,\n", REPORT_TITLE, REPORT_FORMAT);
    put_identity(file, &night->identity);
    fputs(" \"shard\": {", file);
    put_numbers(file, &shard_fields, &night->shard);
    fputs("},\n \"cards\": [", file);
    for (size_t i = 0; i < night->cards->count; i++) {
        fputs(i == 0 ? "" : ", ", file);
        put_json(file, night->cards->at[i]);
    }
    fputs("],\n", file);
    put_sorts(file, &night->spectrum);
    put_spectrum(file, night);
    put_causes(file, night);
    put_since(file, night->since);
    fputs(" \"sheets\": [", file);
    return true;
}

/* -- The sheets ------------------------------------------------------------------------------- */

/* The map, a string for each row. */
static void put_json_map(FILE *file, const struct map *map)
{
    fputs(", \"map\": [", file);
    for (uint32_t row = 0; row < map->rows; row++) {
        fprintf(file, "%s\"%.*s\"", row == 0 ? "" : ", ", (int)map->columns, map->cells + row * map->columns);
    }
    putc(']', file);
}

static void put_lead(FILE *file, const struct spectrum *spectrum, const struct lead *lead)
{
    fputs(", \"lead\": {", file);
    put_numbers(file, &lead_fields, lead);
    fprintf(file, ", \"sort\": %" PRIu32 "}", known_sort(spectrum, &lead->traits));
}

/* Which sorts of elements differ, and how many of each. */
static void put_pairs(FILE *file, const struct spectrum *spectrum, const struct finding *finding)
{
    fputs(", \"sorts\": [", file);
    for (uint32_t i = 0; i < finding->sorts; i++) {
        const struct sort_pair *pair = &spectrum->pairs[finding->sorts_at + i];
        fprintf(file, "%s[%" PRIu32 ", %" PRIu32 "]", comma(i), pair->sort, pair->differ);
    }
    putc(']', file);
}

/* Which causes of its card it has, by their numbers. */
static void put_finding_causes(FILE *file, const struct night *night, const struct finding *finding, size_t card)
{
    size_t before = 0;
    fputs(", \"causes\": [", file);
    for (size_t i = 0; i < night->causes[card].count; i++) {
        if (has_cause(night, finding, card, i)) {
            fprintf(file, "%s%zu", comma(before++), i);
        }
    }
    putc(']', file);
}

/* What differs of one file, if anything does: then the first number of its object is not 0. */
static void put_object(FILE *file, const char *key, const struct number_fields *fields, const void *object)
{
    uint32_t first;
    memcpy(&first, (const char *)object + fields->at[0].offset, sizeof first);
    if (first > 0) {
        fprintf(file, ", \"%s\": {", key);
        put_numbers(file, fields, object);
        putc('}', file);
    }
}

static void put_differences(FILE *file, const struct night *night, const struct finding *finding, size_t card)
{
    put_pairs(file, &night->spectrum, finding);
    put_finding_causes(file, night, finding, card);
    if (finding->lead.there != 0) {
        put_lead(file, &night->spectrum, &finding->lead);
    }
    put_object(file, "memory", &memory_fields, &finding->memory);
    put_object(file, "registers", &register_fields, &finding->registers);
    put_object(file, "trace", &trace_fields, &finding->trace);
    put_object(file, "refusal", &claim_fields, &finding->claim);
    if (finding->map.rows > 0) {
        put_json_map(file, &finding->map);
    }
}

static void put_json_finding(FILE *file, const struct night *night, const struct finding *finding, size_t card)
{
    fputs("  {", file);
    put_member(file, "card", night->cards->at[card]);
    fprintf(file, ", \"verdict\": \"%s\"", verdict_name(finding->verdict));
    if (finding->verdict == VERDICT_MISSING || finding->verdict == VERDICT_UNREADABLE) {
        fprintf(file, ", \"file\": \"%s\"", part_suffix(finding->part));
    }
    if (finding->verdict == VERDICT_REFUSED) {
        fputs(", ", file);
        put_numbers(file, &refusal_fields, finding);
    }
    if (finding->reason[0] != '\0') {
        fputs(", ", file);
        put_member(file, "reason", finding->reason);
    }
    if (finding->verdict == VERDICT_DIFFERS) {
        put_differences(file, night, finding, card);
    }
    putc('}', file);
}

static void put_json_sheet(FILE *file, const struct night *night, size_t number, const char *name,
                           const struct finding *findings)
{
    fprintf(file, "%s\n {", comma(number));
    put_member(file, "sheet", name);
    fputs(", \"findings\": [\n", file);
    for (size_t i = 0; i < night->cards->count; i++) {
        put_json_finding(file, night, &findings[i], i);
        fputs(i + 1 < night->cards->count ? ",\n" : "]}", file);
    }
}

/* -- The totals ------------------------------------------------------------------------------- */

static void put_counts(FILE *file, const struct tally *tally)
{
    for (unsigned i = 0; i < VERDICTS; i++) {
        fprintf(file, ", \"%s\": %zu", verdict_name(i), tally->counts[i]);
    }
    putc('}', file);
}

static bool end_json(FILE *file, struct night *night)
{
    fputs("],\n \"totals\": [", file);
    for (size_t i = 0; i < night->cards->count; i++) {
        fprintf(file, "%s\n  {", comma(i));
        put_member(file, "card", night->cards->at[i]);
        put_counts(file, &night->tallies[i]);
    }
    fprintf(file, "],\n \"night\": {\"sheets\": %zu", night->sheets);
    put_counts(file, &night->total);
    fputs("}\n", file);
    return true;
}

const struct form json_form = {begin_json, put_json_sheet, end_json};
