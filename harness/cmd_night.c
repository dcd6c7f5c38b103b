/* night: every card of a night's folder on every sheet, and the report of it. */
#include <stdlib.h>
#include <string.h>

#include "command.h"
#include "files.h"
#include "folder.h"
#include "merge.h"
#include "missing.h"
#include "names.h"
#include "numbers.h"
#include "outputs.h"
#include "page.h"
#include "progress.h"
#include "report.h"
#include "since.h"
#include "spool.h"
#include "workers.h"

enum { JOBS_MAX = 1024 };

/* Where the report goes. */
struct report_out {
    const struct form *form;
    const char *name; /* NULL: standard output */
    FILE *file;
    const char *page_name; /* NULL: no page */
    struct page *page;
};

/* -- The command line ------------------------------------------------------------------------- */

static bool parse_count(const char *word, size_t len, uint32_t limit, uint32_t *count)
{
    uint64_t number;
    bool done = parse_number(word, len, &number) && number >= 1 && number <= limit;
    *count = done ? (uint32_t)number : 0;
    return done;
}

static int parse_jobs(const struct request *request, uint32_t *jobs)
{
    const char *word = request->words[OPTION_JOBS];
    *jobs = 1;
    if (word != NULL && !parse_count(word, strlen(word), JOBS_MAX, jobs)) {
        return wrong_use(&night_command, "-j %s: not a number of processes, 1 to %d", shown(word).at, JOBS_MAX);
    }
    return DONE;
}

static int parse_shard(const struct request *request, struct shard *shard)
{
    const char *word = request->words[OPTION_SHARD];
    *shard = (struct shard){1, 1};
    if (word == NULL) {
        return DONE;
    }
    const char *slash = strchr(word, '/');
    if (slash == NULL || !parse_count(slash + 1, strlen(slash + 1), UINT32_MAX, &shard->parts) ||
        !parse_count(word, (size_t)(slash - word), shard->parts, &shard->part)) {
        return wrong_use(&night_command, "--shard %s: not K/N, K from 1 to N", shown(word).at);
    }
    return DONE;
}

/* What goes with --missing, which makes no report. */
static int check_missing(const struct request *request)
{
    const unsigned fitting = SET(OPTION_MISSING) | SET(OPTION_NUL) | SET(OPTION_SHARD) | SET(OPTION_ONLY_CARD);
    if (request->words[OPTION_MISSING] == NULL) {
        return request->words[OPTION_NUL] == NULL ? DONE : wrong_use(&night_command, "-0 goes with --missing");
    }
    for (unsigned i = 0; i < OPTIONS; i++) {
        if (request->words[i] != NULL && (fitting & SET(i)) == 0) {
            return wrong_use(&night_command, "--missing does not go with %s", option_forms[i].name);
        }
    }
    return DONE;
}

/* What the files and options leave open: what each means together with the others. */
static int check_night(const struct request *request)
{
    const char *const *words = request->words;
    const char *out = words[OPTION_OUT];
    if (request->file_count == 0) {
        return wrong_use(&night_command, words[OPTION_MERGE] == NULL
                                             ? "night takes DIR"
                                             : "night --merge takes the JSON reports of all parts, PART.json ..");
    }
    if (words[OPTION_JSON] != NULL && words[OPTION_CSV] != NULL) {
        return wrong_use(&night_command, "a report is --json or --csv, not both");
    }
    if (is_standard_output(words[OPTION_HTML]) && (out == NULL || is_standard_output(out))) {
        return wrong_use(&night_command, "standard output can take only one of the report and --html");
    }
    if (words[OPTION_MERGE] != NULL && (words[OPTION_SHARD] != NULL || words[OPTION_JOBS] != NULL)) {
        return wrong_use(&night_command, "--merge takes neither --shard nor -j");
    }
    if (words[OPTION_MERGE] == NULL && request->file_count > 1) {
        return wrong_use(&night_command, "one folder is a night, and %s is one more", shown(request->files[1]).at);
    }
    if (words[OPTION_NAME] != NULL && (words[OPTION_NAME][0] == '\0' || strlen(words[OPTION_NAME]) >= NAME_ROOM)) {
        return wrong_use(&night_command, "--name %s: not a name of 1 to %d bytes", shown(words[OPTION_NAME]).at,
                         NAME_ROOM - 1);
    }
    return check_missing(request);
}

/* Whether no report goes to a file that the next night would take for one of its own. */
static bool is_out_apart(const struct request *request, enum option option)
{
    const char *out = request->words[option];
    return out == NULL || is_standard_output(out) || is_kept_apart(request->files[0], out);
}

/* -- The report ------------------------------------------------------------------------------- */

static void close_report_out(struct report_out *out)
{
    if (out->file != NULL && out->name != NULL) {
        fclose(out->file);
    }
    free_page(out->page);
}

static bool open_report_out(const struct request *request, const struct night *night, struct report_out *out)
{
    const char *const *words = request->words;
    const struct form *form = words[OPTION_JSON] != NULL ? &json_form : &text_form;
    *out = (struct report_out){
        .form = words[OPTION_CSV] != NULL ? &csv_form : form,
        .name = words[OPTION_OUT],
        .file = words[OPTION_OUT] == NULL ? stdout : open_spool(),
        .page_name = words[OPTION_HTML],
    };
    out->page = out->page_name == NULL ? NULL : new_page(night);
    if (out->file == NULL || (out->page_name != NULL && out->page == NULL)) {
        close_report_out(out);
        return false;
    }
    return true;
}

/* Reports all sheets of a night. */
static bool report_sheets(const struct report_out *out, struct night *night, struct finding *findings)
{
    char name[NAME_ROOM];
    bool done = rewind_kept(&night->kept);
    for (size_t i = 0; done && i < night->sheets; i++) {
        done = next_kept(&night->kept, name, findings);
        if (done) {
            out->form->sheet(out->file, night, i, name, findings);
        }
        if (done && out->page != NULL) {
            put_page_sheet(out->page, night, name, findings);
        }
    }
    return done;
}

static bool report_night(const struct report_out *out, struct night *night)
{
    struct finding *findings = calloc(night->cards->count + 1, sizeof findings[0]);
    if (findings == NULL) {
        complain("the report");
        return false;
    }
    bool done = (out->form->begin == NULL || out->form->begin(out->file, night)) &&
                report_sheets(out, night, findings) && (out->form->end == NULL || out->form->end(out->file, night));
    free(findings);
    return done;
}

/* Writes the files that are named: all of them, or none. */
static bool write_report(const struct report_out *out, struct night *night)
{
    FILE *page = NULL;
    if (out->page != NULL && (page = finish_page(out->page, night)) == NULL) {
        return false;
    }
    const struct output outputs[] = {{.name = out->name, .spool = out->file}, {.name = out->page_name, .spool = page}};
    return write_outputs(outputs, sizeof outputs / sizeof outputs[0]);
}

/* -- From a folder ---------------------------------------------------------------------------- */

static bool take_sheets(const struct folder *folder, const struct workers *workers, struct night *night)
{
    struct progress progress;
    struct judged *judged = new_judged(night->cards->count);
    bool done = judged != NULL;
    start_progress(&progress, folder->sheets.count);
    for (size_t i = 0; done && i < folder->sheets.count; i++) {
        done = get_judged(workers, i, judged) && take_judged(night, folder->sheets.at[i], judged);
        show_progress(&progress, i + 1);
    }
    hide_progress(&progress);
    free_judged(judged);
    return done;
}

static bool take_folder(const struct folder *folder, size_t jobs, struct night *night)
{
    struct workers workers;
    size_t most = folder->sheets.count > 1 ? folder->sheets.count : 1;
    if (!start_workers(folder, night->cards, jobs < most ? jobs : most, &workers)) {
        return false;
    }
    bool done = take_sheets(folder, &workers, night);
    stop_workers(&workers);
    return done;
}

/* -- Both ------------------------------------------------------------------------------------- */

/* What a report is made of: a folder, or reports of its parts. */
struct source {
    const struct folder *folder;
    size_t jobs;
    const struct merge *merge;
    struct identity identity;
    const struct list *cards; /* all of them */
    struct shard shard;
};

static bool take_source(const struct source *source, struct night *night)
{
    return (source->merge != NULL ? take_merge(source->merge, night)
                                  : take_folder(source->folder, source->jobs, night)) &&
           find_night_causes(night);
}

/* Makes the report of a night whose sheets are all to be taken. */
static int report_source(const struct request *request, const struct source *source, struct since *since,
                         struct night *night)
{
    struct report_out out;
    int status = FAILED;
    bool done = take_source(source, night) && (since == NULL || compare_nights(since, night));
    if (done && open_report_out(request, night, &out)) {
        if (report_night(&out, night) && write_report(&out, night)) {
            status = tally_status(&night->total);
        }
        close_report_out(&out);
    }
    return status;
}

/* The cards that are asked for, or all; false if there is none of a name. Where no result is there yet, a card may
 * have no file at all. */
static bool choose_cards(const struct request *request, const struct list *all, struct list *chosen)
{
    bool has_choice = request->words[OPTION_ONLY_CARD] != NULL, may_lack = request->words[OPTION_MISSING] != NULL;
    size_t number;
    for (size_t i = 0; i < request->repeated_count; i++) {
        const char *name = request->repeated[i].word;
        if (!may_lack && !find_in_list(all, name, &number)) {
            complain_of(request->files[0], "no card %s is there", shown(name).at);
            return false;
        }
        if (!add_to_list(chosen, name, strlen(name))) {
            complain(name);
            return false;
        }
    }
    for (size_t i = 0; !has_choice && i < all->count; i++) {
        if (!add_to_list(chosen, all->at[i], strlen(all->at[i]))) {
            complain(all->at[i]);
            return false;
        }
    }
    sort_list(chosen);
    return true;
}

static int report_cards(const struct request *request, struct source *source, struct since *since)
{
    struct night night;
    struct list cards = {NULL, 0, 0};
    int status = FAILED;
    if (request->words[OPTION_NAME] != NULL) {
        snprintf(source->identity.name, sizeof source->identity.name, "%s", request->words[OPTION_NAME]);
    }
    if (choose_cards(request, source->cards, &cards) &&
        begin_night(&night, &source->identity, &cards, &source->shard)) {
        night.since = since;
        status = report_source(request, source, since, &night);
        end_night(&night);
    }
    free_list(&cards);
    return status;
}

/* The last night is read first: if it is no report, no sheet is judged in vain. */
static int make_report(const struct request *request, struct source *source)
{
    struct since since;
    const char *last = request->words[OPTION_SINCE];
    if (last == NULL) {
        return report_cards(request, source, NULL);
    }
    if (!open_since(last, &since)) {
        return FAILED;
    }
    int status = report_cards(request, source, &since);
    close_since(&since);
    return status;
}

static int merge_night(const struct request *request)
{
    struct merge merge;
    if (!open_merge((const char *const *)request->files, request->file_count, &merge)) {
        return FAILED;
    }
    const struct report_in *first = &merge.reports[0];
    struct source source = {.merge = &merge, .identity = first->identity, .cards = &first->cards, .shard = {1, 1}};
    int status = make_report(request, &source);
    close_merge(&merge);
    return status;
}

/* Says which results are missing in a folder. */
static int list_missing(const struct request *request)
{
    struct shard shard;
    struct folder folder;
    struct list cards = {NULL, 0, 0};
    int status = parse_shard(request, &shard);
    if (status != DONE) {
        return status;
    }
    if (!open_folder(request->files[0], &shard, &folder)) {
        return FAILED;
    }
    bool done = choose_cards(request, &folder.cards, &cards) &&
                print_missing(&folder, &cards, request->words[OPTION_NUL] != NULL);
    free_list(&cards);
    close_folder(&folder);
    return done ? DONE : FAILED;
}

static int judge_night(const struct request *request)
{
    uint32_t jobs;
    struct shard shard;
    struct folder folder;
    int status = parse_jobs(request, &jobs);
    if (status == DONE) {
        status = parse_shard(request, &shard);
    }
    if (status != DONE) {
        return status;
    }
    if (!is_out_apart(request, OPTION_OUT) || !is_out_apart(request, OPTION_HTML) ||
        !open_folder(request->files[0], &shard, &folder)) {
        return FAILED;
    }
    if (folder.cards.count > 0) {
        struct source source = {.folder = &folder, .jobs = jobs, .identity = folder.identity, .cards = &folder.cards,
                                .shard = shard};
        status = make_report(request, &source);
    } else {
        complain_of(request->files[0], "no card's file, NAME.CARD.after, is there: nothing to compare");
        status = FAILED;
    }
    close_folder(&folder);
    return status;
}

static int do_night(const struct request *request)
{
    int status = check_night(request);
    if (status != DONE) {
        return status;
    }
    if (request->words[OPTION_MISSING] != NULL) {
        return list_missing(request);
    }
    return request->words[OPTION_MERGE] != NULL ? merge_night(request) : judge_night(request);
}

const struct command night_command = {
    .name = "night",
    .files = "DIR",
    .files_max = SIZE_MAX,
    .takes = SET(OPTION_JOBS) | SET(OPTION_JSON) | SET(OPTION_CSV) | SET(OPTION_OUT) | SET(OPTION_HTML) |
             SET(OPTION_SHARD) | SET(OPTION_MERGE) | SET(OPTION_NAME) | SET(OPTION_SINCE) |
             SET(OPTION_ONLY_CARD) | SET(OPTION_MISSING) | SET(OPTION_NUL),
    .out = "the report",
    .summary = "compare every card of a night's folder on every sheet",
    .details = "DIR has files NAME.sheet (or NAME.txt, the text form), NAME.memory, NAME.CARD.after and, if the\n"
               "card has them, NAME.CARD.registers, NAME.CARD.trace and, where it refuses the sheet,\n"
               "NAME.CARD.refusal. A line for each sheet and card: agrees, differs, missing, refused or\n"
               "unreadable, then what each card's differing elements have in common, then totals.\n"
               "With --merge the files are JSON reports of all parts that --shard made, in place of DIR, and the\n"
               "report is that of one run.\n"
               "Exit status: 1 some card differs; else 3 a file is missing or cannot be read; else 4 a sheet is\n"
               "refused; else 0, all agree. 2 is wrong use.\n",
    .perform = do_night,
};
