#include "page.h"

#include <inttypes.h>
#include <stdlib.h>
#include <string.h>

#include "files.h"
#include "grid.h"
#include "map.h"
#include "names.h"
#include "page_style.h"
#include "since.h"
#include "spool.h"

/* The parts of a page that grow with each sheet: rows of the grid, what differs in words and maps, and what could
 * not be compared. The page is put together when the totals, which come first, are known. */
enum { GRID, DIFFERENCES, UNCOMPARED, WHOLE, SPOOLS };

struct page {
    FILE *spools[SPOOLS];
    size_t differing;
    struct frames frames;
    struct grid grid;
};

struct page *new_page(const struct night *night)
{
    struct page *page = calloc(1, sizeof *page);
    uint32_t *verdicts = calloc(night->cards->count + 1, sizeof verdicts[0]);
    if (page == NULL || verdicts == NULL) {
        complain("a page");
        free(verdicts);
        free(page);
        return NULL;
    }
    page->grid.verdicts = verdicts;
    for (size_t i = 0; i < SPOOLS; i++) {
        page->spools[i] = open_spool();
        if (page->spools[i] == NULL) {
            free_page(page);
            return NULL;
        }
    }
    page->grid.file = page->spools[GRID];
    return page;
}

void free_page(struct page *page)
{
    if (page == NULL) {
        return;
    }
    for (size_t i = 0; i < SPOOLS; i++) {
        if (page->spools[i] != NULL) {
            fclose(page->spools[i]);
        }
    }
    free(page->grid.verdicts);
    free(page);
}

static void put_page_name(FILE *file, const char *name)
{
    put_name(&(struct sink){file, put_html}, name);
}

/* -- Sheets ----------------------------------------------------------------------------------- */

/* The words of a difference, a line for each part of the sentence. */
static void put_paragraphs(FILE *file, struct text words)
{
    static const char mark[] = "; ";
    const char *class = " class=\"first\"";
    for (char *part = words.len > 0 ? words.at : NULL; part != NULL;) {
        char *end = strstr(part, mark);
        if (end != NULL) {
            *end = '\0';
        }
        fprintf(file, "<p%s>", class);
        put_html(file, part);
        fputs("</p>", file);
        class = "";
        part = end == NULL ? NULL : end + strlen(mark);
    }
}

/* What differs, in words and as a map. */
static void put_words(FILE *file, struct page *page, const struct finding *finding)
{
    struct text lead = {.len = 0}, memory = {.len = 0}, registers = {.len = 0}, trace = {.len = 0}, claim = {.len = 0};
    add_lead(&lead, &finding->lead);
    add_memory_difference(&memory, &finding->memory);
    add_register_difference(&registers, &finding->registers);
    put_paragraphs(file, lead);
    put_paragraphs(file, memory);
    put_paragraphs(file, registers);
    add_trace_difference(&trace, &finding->trace);
    add_refusal_difference(&claim, &finding->claim);
    put_paragraphs(file, trace);
    put_paragraphs(file, claim);
    fputs("</div>", file);
    if (finding->map.rows > 0) {
        put_map(file, &finding->map, &page->frames);
    }
    fputs("</article>\n", file);
}

static void put_difference(struct page *page, const struct night *night, const char *name, size_t card,
                           const struct finding *finding)
{
    FILE *file = page->spools[DIFFERENCES];
    fprintf(file, "<article id=\"d%zu\"><div><h3>", page->differing);
    put_page_name(file, night->cards->at[card]);
    fputs(" on ", file);
    put_page_name(file, name);
    fputs("</h3>", file);
    put_words(file, page, finding);
}

/* A line for a card that could not be judged; card NULL: no card could. */
static void put_uncompared(struct page *page, const char *name, const char *card, const struct finding *finding)
{
    FILE *file = page->spools[UNCOMPARED];
    fputs("<li><b>", file);
    put_page_name(file, name);
    fputs("</b>, ", file);
    if (card == NULL) {
        fputs("every card", file);
    } else {
        put_page_name(file, card);
    }
    fputs(": ", file);
    put_night_finding(&(struct sink){file, put_html}, finding, name, card);
    fputs("</li>\n", file);
}

/* Whether a finding is of the sheet's own files, and so of every card. */
static bool is_of_sheet(const struct finding *finding)
{
    return finding->verdict == VERDICT_REFUSED ||
           ((finding->verdict == VERDICT_MISSING || finding->verdict == VERDICT_UNREADABLE) &&
            !is_cards_part(finding->part));
}

/* Whether what is found is of the sheet's own files, for every card. */
static bool is_common(const struct night *night, const struct finding *findings)
{
    bool common = true;
    for (size_t i = 0; i < night->cards->count; i++) {
        common = common && is_of_sheet(&findings[i]);
    }
    return common;
}

void put_page_sheet(struct page *page, const struct night *night, const char *name, const struct finding *findings)
{
    bool common = is_common(night, findings);
    put_grid_sheet(&page->grid, night, name, findings);
    for (size_t i = 0; i < night->cards->count; i++) {
        const struct finding *finding = &findings[i];
        if (finding->verdict == VERDICT_DIFFERS) {
            put_difference(page, night, name, i, finding);
            page->differing++;
        } else if (finding->verdict != VERDICT_AGREES && (i == 0 || !common)) {
            put_uncompared(page, name, common ? NULL : night->cards->at[i], finding);
        }
    }
}

/* -- The whole -------------------------------------------------------------------------------- */

static size_t count_cards(const struct night *night, unsigned verdict)
{
    size_t count = 0;
    for (size_t i = 0; i < night->cards->count; i++) {
        count += night->tallies[i].counts[verdict] > 0;
    }
    return count;
}

static size_t count_uncompared(const struct tally *tally)
{
    return tally_sum(tally) - tally->counts[VERDICT_AGREES] - tally->counts[VERDICT_DIFFERS];
}

/* The night's verdict in a few words. */
static void put_verdict(FILE *file, const struct night *night)
{
    size_t cards = night->cards->count, differing = count_cards(night, VERDICT_DIFFERS);
    size_t uncompared = count_uncompared(&night->total);
    if (differing > 0) {
        fprintf(file, "%zu of %zu card%s differ%s", differing, cards, plural(cards), differing == 1 ? "s" : "");
    } else if (uncompared > 0) {
        fprintf(file, "No card differs, but %zu comparison%s could not be made", uncompared, plural(uncompared));
    } else {
        fprintf(file, "Every card agrees on every sheet");
    }
}

static void put_head(FILE *file, const struct night *night)
{
    const size_t *counts = night->total.counts;
    bool differs = counts[VERDICT_DIFFERS] > 0, is_open = count_uncompared(&night->total) > 0;
    struct text identity = {.len = 0};
    fputs("<!DOCTYPE html>\n<html lang=\"en\"><head><meta charset=\"utf-8\"/>"
          "<meta name=\"viewport\" content=\"width=device-width, initial-scale=1\"/>\n<title>", file);
    put_verdict(file, night);
    fprintf(file, "</title>\n<style>\n%s</style></head>\n<body>\n", page_style);
    fprintf(file, "<header class=\"%s\"><p>Moonbleat: the report of night ",
            differs ? "differs" : is_open ? "open" : "agrees");
    put_page_name(file, night->identity.name);
    fputs("</p><h1>", file);
    put_verdict(file, night);
    fprintf(file, "</h1><p>%zu sheet%s on %zu card%s: %zu agree, %zu differ, %zu could not be compared.</p>",
            night->sheets, plural(night->sheets), night->cards->count, plural(night->cards->count),
            counts[VERDICT_AGREES], counts[VERDICT_DIFFERS], count_uncompared(&night->total));
    add_identity(&identity, &night->identity);
    fprintf(file, "<p class=\"identity\">%s</p></header>\n", identity.at);
}

/* A card's verdict in words. */
static void put_card_verdict(FILE *file, const struct tally *tally)
{
    size_t differing = tally->counts[VERDICT_DIFFERS], uncompared = count_uncompared(tally);
    unsigned verdict = differing > 0 ? VERDICT_DIFFERS : uncompared > 0 ? VERDICT_UNREADABLE : VERDICT_AGREES;
    fprintf(file, "<span class=\"sign %s\">%s ", verdict_name(verdict), verdict_sign(verdict));
    if (differing > 0) {
        fprintf(file, "differs on %zu sheet%s", differing, plural(differing));
    } else if (uncompared > 0) {
        fprintf(file, "not compared on %zu sheet%s", uncompared, plural(uncompared));
    } else {
        fputs("agrees on every sheet", file);
    }
    fputs("</span>", file);
}

/* Whether a verdict has a column: the first two always, the others if they were given. */
static bool has_column(const struct night *night, unsigned verdict)
{
    return verdict == VERDICT_AGREES || verdict == VERDICT_DIFFERS || night->total.counts[verdict] > 0;
}

/* A card's name, which leads to its first cause. */
static void put_card_link(FILE *file, const struct night *night, size_t card)
{
    if (night->causes[card].count > 0) {
        fprintf(file, "<a href=\"#c%zu-0\">", card);
        put_page_name(file, night->cards->at[card]);
        fputs("</a>", file);
    } else {
        put_page_name(file, night->cards->at[card]);
    }
}

static void put_card_table(FILE *file, const struct night *night)
{
    fputs("<section><h2>Cards</h2><div class=\"wide\"><table><thead><tr><th>card</th><th>verdict</th>", file);
    for (unsigned i = 0; i < VERDICTS; i++) {
        if (has_column(night, i)) {
            fputs("<th class=\"number\">", file);
            put_sign(file, i);
            fprintf(file, "<span class=\"word\"> %s</span></th>", verdict_name(i));
        }
    }
    fputs("</tr></thead><tbody>\n", file);
    for (size_t i = 0; i < night->cards->count; i++) {
        fputs("<tr><th>", file);
        put_card_link(file, night, i);
        fputs("</th><td>", file);
        put_card_verdict(file, &night->tallies[i]);
        fputs("</td>", file);
        for (unsigned j = 0; j < VERDICTS; j++) {
            if (has_column(night, j)) {
                fprintf(file, "<td class=\"number\">%zu</td>", night->tallies[i].counts[j]);
            }
        }
        fputs("</tr>\n", file);
    }
    fputs("</tbody></table></div></section>\n", file);
}

static bool put_grid(struct page *page, const struct night *night)
{
    FILE *file = page->spools[WHOLE];
    fputs("<section><h2>Sheets and cards</h2><p class=\"legend\">", file);
    for (unsigned i = 0; i < VERDICTS; i++) {
        if (has_column(night, i)) {
            fputs("<span class=\"pair\">", file);
            put_sign(file, i);
            fprintf(file, " %s</span> ", verdict_name(i));
        }
    }
    fputs("</p><div class=\"tall\"><table class=\"grid\"><thead><tr><th>sheet</th>", file);
    for (size_t i = 0; i < night->cards->count; i++) {
        fputs("<th>", file);
        put_card_link(file, night, i);
        fputs("</th>", file);
    }
    fputs("</tr></thead><tbody>\n", file);
    bool done = copy_spool(page->spools[GRID], file);
    fputs("</tbody></table></div></section>\n", file);
    return done;
}

/* The sheets of a cause, each leading to its difference. */
static void put_cause_sheets(FILE *file, const struct night *night, size_t card, size_t cause)
{
    const char *mark = "<p class=\"sheets\">Sheets: ";
    for (size_t i = 0; find_of_cause(night, card, cause, &i); i++) {
        fprintf(file, "%s<a href=\"#d%zu\">", mark, i);
        put_page_name(file, night->kept.differences[i].sheet);
        fputs("</a>", file);
        mark = ", ";
    }
    fputs("</p>", file);
}

/* A cause: its headline, its sheets, and a worked example. */
static bool put_cause(struct page *page, struct night *night, size_t card, size_t cause)
{
    FILE *file = page->spools[WHOLE];
    struct shown_cause told;
    if (!show_cause(night, card, cause, &told)) {
        return false;
    }
    fprintf(file, "<article class=\"cause\" id=\"c%zu-%zu\"><div><h3>", card, cause);
    put_page_name(file, night->cards->at[card]);
    fputs(": ", file);
    put_html(file, told.headline.at);
    fputs("</h3>", file);
    put_cause_sheets(file, night, card, cause);
    fputs("<p>For instance on ", file);
    put_page_name(file, told.sheet);
    fputs(":</p>", file);
    put_words(file, page, &told.finding);
    return true;
}

static bool put_causes(struct page *page, struct night *night)
{
    bool done = true;
    fputs("<section><h2>Causes</h2><p class=\"legend\">What the elements that differ have in common: how many elements "
          "of the sort differ, and how many others do. A map shows the matrix of the earliest step, by row and column: "
          "crossed elements differ, blue ones agree, the others are not shown by memory or registers.</p>\n",
          page->spools[WHOLE]);
    for (size_t i = 0; i < night->cards->count; i++) {
        for (size_t j = 0; done && j < night->causes[i].count; j++) {
            done = put_cause(page, night, i, j);
        }
    }
    fputs("</section>\n", page->spools[WHOLE]);
    return done;
}

/* What has changed since another night. */
static void put_changes(FILE *file, const struct since *since)
{
    fputs("<section><h2>Since night ", file);
    put_page_name(file, since->last.identity.name);
    fprintf(file, ", %s</h2><ul>\n", since->last.identity.date);
    for (size_t i = 0; i < since->count; i++) {
        struct text change = {.len = 0};
        add_change(&change, &since->lines[i]);
        fputs("<li><b>", file);
        put_page_name(file, since->lines[i].card);
        fputs("</b>: ", file);
        put_html(file, change.at);
        fputs("</li>\n", file);
    }
    fputs(since->count == 0 ? "<li>No card differs or did.</li></ul></section>\n" : "</ul></section>\n", file);
}

static bool put_spool(struct page *page, unsigned spool, const char *before, const char *behind)
{
    fputs(before, page->spools[WHOLE]);
    bool done = copy_spool(page->spools[spool], page->spools[WHOLE]);
    fputs(behind, page->spools[WHOLE]);
    return done;
}

static bool put_whole(struct page *page, struct night *night)
{
    FILE *file = page->spools[WHOLE];
    bool done = true;
    put_head(file, night);
    if (night->since != NULL) {
        put_changes(file, night->since);
    }
    put_card_table(file, night);
    if (page->differing > 0) {
        done = put_causes(page, night) &&
               put_spool(page, DIFFERENCES, "<section><h2>Differences</h2>\n", "</section>\n");
    }
    if (count_uncompared(&night->total) > 0) {
        done = done && put_spool(page, UNCOMPARED, "<section><h2>Not compared</h2><ul>\n", "</ul></section>\n");
    }
    done = done && put_grid(page, night);
    fputs("</body></html>\n", file);
    return done;
}

FILE *finish_page(struct page *page, struct night *night)
{
    end_grid(&page->grid, night);
    if (!put_whole(page, night)) {
        complain("a file for the page");
        return NULL;
    }
    return page->spools[WHOLE];
}
