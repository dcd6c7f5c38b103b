#include "report.h"

#include <inttypes.h>

#include "since.h"

void put_night_finding(const struct sink *sink, const struct finding *finding, const char *sheet, const char *card)
{
    struct text file = {.len = 0};
    add_part_name(&file, sheet, card, finding->part);
    put_finding(sink, finding, file.at);
}

/* -- Text ------------------------------------------------------------------------------------- */

/* What has changed since another night, a line for each card and cause. */
static void put_text_changes(FILE *file, const struct since *since)
{
    const struct sink sink = {file, put_plain};
    fputs("since night ", file);
    put_name(&sink, since->last.identity.name);
    fprintf(file, ", %s:%s\n", since->last.identity.date, since->count == 0 ? " no card differs or did" : "");
    for (size_t i = 0; i < since->count; i++) {
        struct text change = {.len = 0};
        add_change(&change, &since->lines[i]);
        fputs("  ", file);
        put_name(&sink, since->lines[i].card);
        fprintf(file, ": %s\n", change.at);
    }
    putc('\n', file);
}

static bool begin_text(FILE *file, struct night *night)
{
    struct text identity = {.len = 0};
    add_identity(&identity, &night->identity);
    fputs("night ", file);
    put_name(&(struct sink){file, put_plain}, night->identity.name);
    fprintf(file, ", %s\n\n", identity.at);
    if (night->since != NULL) {
        put_text_changes(file, night->since);
    }
    return true;
}

/* A line for each card. */
static void put_text_sheet(FILE *file, const struct night *night, size_t number, const char *name,
                           const struct finding *findings)
{
    (void)number;
    const struct sink sink = {file, put_plain};
    for (size_t i = 0; i < night->cards->count; i++) {
        const char *card = night->cards->at[i];
        put_name(&sink, name);
        putc(' ', file);
        put_name(&sink, card);
        putc(' ', file);
        put_night_finding(&sink, &findings[i], name, card);
        putc('\n', file);
    }
}

static void put_tally(FILE *file, const struct tally *tally)
{
    const size_t *counts = tally->counts;
    fprintf(file, "%zu agree, %zu differ, %zu missing, %zu refused, %zu unreadable\n", counts[VERDICT_AGREES],
            counts[VERDICT_DIFFERS], counts[VERDICT_MISSING], counts[VERDICT_REFUSED], counts[VERDICT_UNREADABLE]);
}

/* The sheets of a cause, on one line. */
static void put_cause_sheets(FILE *file, const struct night *night, size_t card, size_t cause)
{
    const char *mark = "  sheets: ";
    for (size_t i = 0; find_of_cause(night, card, cause, &i); i++) {
        fputs(mark, file);
        put_name(&(struct sink){file, put_plain}, night->kept.differences[i].sheet);
        mark = ", ";
    }
    putc('\n', file);
}

/* A cause of a card: its headline, a worked example, and its sheets. */
static bool put_text_cause(FILE *file, struct night *night, size_t card, size_t cause)
{
    const struct sink sink = {file, put_plain};
    struct shown_cause told;
    if (!show_cause(night, card, cause, &told)) {
        return false;
    }
    put_name(&sink, night->cards->at[card]);
    fprintf(file, ": %s\n  for instance ", told.headline.at);
    put_name(&sink, told.sheet);
    putc(' ', file);
    put_finding(&sink, &told.finding, NULL);
    putc('\n', file);
    put_cause_sheets(file, night, card, cause);
    return true;
}

static bool put_text_causes(FILE *file, struct night *night)
{
    bool done = true;
    for (size_t i = 0; i < night->cards->count; i++) {
        for (size_t j = 0; done && j < night->causes[i].count; j++) {
            done = put_text_cause(file, night, i, j);
        }
    }
    if (night->total.counts[VERDICT_DIFFERS] > 0) {
        putc('\n', file);
    }
    return done;
}

static bool end_text(FILE *file, struct night *night)
{
    const struct sink sink = {file, put_plain};
    putc('\n', file);
    if (!put_text_causes(file, night)) {
        return false;
    }
    for (size_t i = 0; i < night->cards->count; i++) {
        put_name(&sink, night->cards->at[i]);
        fputs(": ", file);
        put_tally(file, &night->tallies[i]);
    }
    fprintf(file, "night: %zu sheet%s, %zu card%s: ", night->sheets, plural(night->sheets), night->cards->count,
            plural(night->cards->count));
    put_tally(file, &night->total);
    return true;
}

const struct form text_form = {begin_text, put_text_sheet, end_text};

/* -- CSV -------------------------------------------------------------------------------------- */

/* All numbers are decimal, which a column says: the words of the detail have bytes in hex. */
enum { CSV_BASE = 10 };

static bool begin_csv(FILE *file, struct night *night)
{
    (void)night;
    fputs("sheet,card,verdict,bytes,runs,byte,wants,has,step,register,element,row,column,registers,detail,lead_step,"
          "lead_element,causes,base,since,night,date,version,edition,digest\r\n", file);
    return true;
}

/* The numbers of a difference in memory; where there is none, or no step stores there, the fields
 * stay empty. */
static void put_csv_difference(FILE *file, const struct memory_difference *memory)
{
    const struct origin *origin = &memory->origin;
    if (memory->bytes > 0) {
        fprintf(file, "%" PRIu32 ",%" PRIu32 ",%" PRIu32 ",%" PRIu32 ",%" PRIu32 ",", memory->bytes, memory->runs,
                memory->byte, memory->wants, memory->has);
    } else {
        fputs(",,,,,", file);
    }
    if (memory->stored != 0) {
        fprintf(file, "%" PRIu32 ",%" PRIu32 ",%" PRIu32 ",%" PRIu32 ",%" PRIu32 ",", origin->step, origin->reg,
                origin->element, origin->row, origin->column);
    } else {
        fputs(",,,,,", file);
    }
}

/* The names of a finding's causes, as one field. */
static void put_csv_causes(FILE *file, const struct night *night, size_t card, const struct finding *finding)
{
    const struct causes *causes = &night->causes[card];
    const char *mark = "";
    putc('"', file);
    for (size_t i = 0; i < causes->count; i++) {
        if (has_cause(night, finding, card, i)) {
            struct text name = {.len = 0};
            add_cause_name(&name, &causes->at[i]);
            fprintf(file, "%s%s", mark, name.at);
            mark = "; ";
        }
    }
    putc('"', file);
}

/* Which night it is of: the same on every row, so that rows of several nights may stand in one table. */
static void put_csv_identity(FILE *file, const struct identity *identity)
{
    putc(',', file);
    put_csv(file, identity->name);
    fprintf(file, ",%s,%s,%" PRIu32 ",%s\r\n", identity->date, identity->version, identity->edition,
            identity->digest);
}

static void put_csv_sheet(FILE *file, const struct night *night, size_t number, const char *name,
                          const struct finding *findings)
{
    (void)number;
    for (size_t i = 0; i < night->cards->count; i++) {
        const char *card = night->cards->at[i];
        const struct finding *finding = &findings[i];
        put_csv(file, name);
        putc(',', file);
        put_csv(file, card);
        fprintf(file, ",%s,", verdict_name(finding->verdict));
        put_csv_difference(file, &finding->memory);
        if (finding->registers.registers > 0) {
            fprintf(file, "%" PRIu32, finding->registers.registers);
        }
        putc(',', file);
        putc('"', file);
        put_night_finding(&(struct sink){file, put_quoted}, finding, name, card);
        fputs("\",", file);
        if (finding->lead.there != 0) {
            fprintf(file, "%" PRIu32 ",%" PRIu32, finding->lead.step, finding->lead.element);
        } else {
            putc(',', file);
        }
        putc(',', file);
        put_csv_causes(file, night, i, finding);
        fprintf(file, ",%d,%s", CSV_BASE, night->since == NULL ? "" : change_of(night->since, night, name, i));
        put_csv_identity(file, &night->identity);
    }
}

const struct form csv_form = {begin_csv, put_csv_sheet, NULL};
