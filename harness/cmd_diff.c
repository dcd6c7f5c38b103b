/* diff: what cards left beside what the sheet must leave. */
#define _POSIX_C_SOURCE 200809L

#include <fcntl.h>
#include <inttypes.h>
#include <stdlib.h>
#include <string.h>

#include "answers.h"
#include "cards.h"
#include "command.h"
#include "files.h"
#include "kinds.h"
#include "names.h"
#include "report_fields.h"
#include "sheet_file.h"

/* A card on the command line. */
struct card {
    char name[NAME_ROOM];
    struct card_names files;
};

/* -- Every difference ------------------------------------------------------------------------- */

/* Bytes that are printed on a line. */
enum { LINE_BYTES = 16 };

static void print_bytes(const char *word, const uint8_t *bytes, size_t count)
{
    printf("%s", word);
    for (size_t i = 0; i < count; i++) {
        printf(" %02X", (unsigned)bytes[i]);
    }
}

static struct text origin_words(const struct reference *reference, size_t byte)
{
    struct text text = {.len = 0};
    struct origin origin;
    bool is_stored = stored_by(&reference->origins, byte) != 0;
    if (is_stored) {
        origin = origin_of(&reference->origins, byte);
    }
    add_origin(&text, is_stored ? &origin : NULL);
    return text;
}

/* A run: its bytes and its ends' origins, then what is wanted and there, line by line. */
static void print_run(const struct reference *reference, const uint8_t *after, const struct run *run)
{
    size_t last = run->end - 1;
    printf("  bytes %zu to %zu: %s", run->first, last, origin_words(reference, run->first).at);
    if (last > run->first && stored_by(&reference->origins, last) != 0) {
        struct origin origin = origin_of(&reference->origins, last);
        printf(", to element %" PRIu32 " (%" PRIu32 ", %" PRIu32 "), byte %" PRIu32, origin.element, origin.row,
               origin.column, origin.byte);
    }
    putchar('\n');
    for (size_t at = run->first; at < run->end; at += LINE_BYTES) {
        size_t count = run->end - at < LINE_BYTES ? run->end - at : LINE_BYTES;
        printf("    %zu", at);
        print_bytes(" wants", reference->memory.at + at, count);
        print_bytes(", has", after + at, count);
        putchar('\n');
    }
}

static void print_runs(const struct reference *reference, const uint8_t *after)
{
    struct run run = {0, 0};
    while (find_run(reference, after, run.end, &run)) {
        print_run(reference, after, &run);
    }
}

static void print_values(const char *word, const struct matrix *matrix, size_t first, size_t end)
{
    printf("%s", word);
    for (size_t i = first; i < end; i++) {
        printf(" %" PRId64, element_value(matrix->type[0], matrix->elements[i]));
    }
}

/* The elements of a register that differ, in runs. */
static void print_elements(const struct register_difference *difference, const struct matrix *wants,
                           const struct matrix *has)
{
    struct text giver = {.len = 0};
    add_giver(&giver, difference);
    size_t columns = wants->type[2], first, next;
    for (size_t end = 0; find_element(wants, has, end, &first);) {
        end = first + 1;
        while (find_element(wants, has, end, &next) && next == end) {
            end++;
        }
        printf("  register %" PRIu32 ", elements %zu (%zu, %zu) to %zu (%zu, %zu): %s\n    %zu", difference->reg, first,
               first / columns, first % columns, end - 1, (end - 1) / columns, (end - 1) % columns, giver.at, first);
        print_values(" wants", wants, first, end);
        print_values(", has", has, first, end);
        putchar('\n');
    }
}

static void print_registers(const struct reference *reference, const struct result *registers)
{
    for (unsigned reg = 0; reg < MOONBLEAT_REGISTERS; reg++) {
        struct register_difference difference;
        struct matrix wants = matrix_of(&reference->result, reg), has = matrix_of(registers, reg);
        if (!compare_register(reference, registers, reg, &difference)) {
            continue;
        }
        if (difference.typed != 0) {
            print_elements(&difference, &wants, &has);
        } else {
            struct text text = {.len = 0};
            add_register(&text, &difference);
            printf("  %s\n", text.at);
        }
    }
}

/* -- The command ------------------------------------------------------------------------------ */

/* Takes NAME=WORD apart; false if it is not that. */
static bool parse_pair(const char *word, char name[NAME_ROOM], const char **rest)
{
    const char *equals = strchr(word, '=');
    size_t len = equals == NULL ? 0 : (size_t)(equals - word);
    if (len == 0 || len >= NAME_ROOM || equals[1] == '\0') {
        return false;
    }
    memcpy(name, word, len);
    name[len] = '\0';
    *rest = equals + 1;
    return true;
}

static struct card *find_card(struct card *cards, size_t count, const char *name)
{
    for (size_t i = 0; i < count; i++) {
        if (strcmp(cards[i].name, name) == 0) {
            return &cards[i];
        }
    }
    return NULL;
}

/* Takes the cards from the command line. */
static int parse_cards(const struct request *request, struct card *cards, size_t *count)
{
    for (size_t i = 0; i < request->repeated_count; i++) {
        const struct repeated *repeated = &request->repeated[i];
        struct card card = {.files = {.after = NULL}};
        if (!parse_pair(repeated->word, card.name, &card.files.after)) {
            const struct option_form *form = &option_forms[repeated->option];
            return wrong_use(&diff_command, "%s %s: not a %s", form->name, shown(repeated->word).at, form->value);
        }
        if (repeated->option == OPTION_CARD) {
            if (find_card(cards, *count, card.name) != NULL) {
                return wrong_use(&diff_command, "card %s is given twice", shown(card.name).at);
            }
            cards[(*count)++] = card;
        }
    }
    return DONE;
}

/* Takes the cards' other files from the command line. */
static int parse_files(const struct request *request, struct card *cards, size_t count)
{
    for (size_t i = 0; i < request->repeated_count; i++) {
        enum option option = request->repeated[i].option;
        const char *option_name = option_forms[option].name, *file = NULL;
        char name[NAME_ROOM];
        if (option == OPTION_CARD) {
            continue;
        }
        parse_pair(request->repeated[i].word, name, &file);
        struct card *card = find_card(cards, count, name);
        if (card == NULL) {
            return wrong_use(&diff_command, "%s %s: no card has this name", option_name, shown(name).at);
        }
        const char **place = option == OPTION_CARD_TRACE ? &card->files.trace : &card->files.registers;
        if (*place != NULL) {
            return wrong_use(&diff_command, "%s %s is given twice", option_name, shown(name).at);
        }
        *place = file;
    }
    return DONE;
}

/* The name of the file that a finding is about. */
static const char *file_of(const struct card *card, const struct finding *finding)
{
    switch (finding->part) {
    case PART_REGISTERS:
        return card->files.registers;
    case PART_TRACE:
        return card->files.trace;
    default:
        return card->files.after;
    }
}

static void print_card(const struct reference *reference, const struct card *card, const struct finding *finding,
                       const struct card_files *files, bool all)
{
    const struct sink sink = {stdout, put_plain};
    put_name(&sink, card->name);
    putchar(' ');
    put_finding(&sink, finding, file_of(card, finding));
    putchar('\n');
    if (all && finding->verdict == VERDICT_DIFFERS) {
        print_runs(reference, files->after);
        if (files->has_registers) {
            print_registers(reference, &files->registers);
        }
    }
}

/* The numbers of an object, if the first is not 0. */
static void json_numbers(struct json *json, const char *key, const struct number_fields *fields, const void *object)
{
    for (size_t i = 0; i < fields->count; i++) {
        uint32_t number;
        memcpy(&number, (const char *)object + fields->at[i].offset, sizeof number);
        if (i == 0 && number == 0) {
            json_null(json, key);
            return;
        }
        if (i == 0) {
            json_open(json, key, '{');
        }
        json_number(json, fields->at[i].key, number);
    }
    json_close(json, '}');
}

static void json_card(struct json *json, const struct card *card, const struct finding *finding)
{
    struct text words = {.len = 0};
    add_words(&words, finding);
    json_open(json, NULL, '{');
    json_name(json, "card", card->name);
    json_text(json, "verdict", verdict_name(finding->verdict));
    json_name(json, "detail", words.at);
    if (finding->verdict == VERDICT_MISSING || finding->verdict == VERDICT_UNREADABLE) {
        json_name(json, "file", file_of(card, finding));
    } else {
        json_null(json, "file");
    }
    json_numbers(json, "lead", &lead_fields, &finding->lead);
    json_numbers(json, "memory", &memory_fields, &finding->memory);
    json_numbers(json, "registers", &register_fields, &finding->registers);
    json_numbers(json, "trace", &trace_fields, &finding->trace);
    json_close(json, '}');
}

static int diff_cards(const struct request *request, struct bytes sheet, struct bytes memory,
                      const struct card *cards, size_t count)
{
    static struct reference reference;
    static struct card_files files;
    static uint32_t counts[CENSUS_MAX];
    const struct location here = {AT_FDCWD, false};
    struct tally tally = {{0}};
    struct json json = {false};
    bool is_json = request->words[OPTION_JSON] != NULL, is_accepted = carry_reference(&reference, sheet, memory);
    struct refused refused = refused_reference(&reference);
    if (!is_accepted) {
        answer_refusal(&diff_command, request, &refused);
        return INPUT_REFUSED;
    }
    if (is_json) {
        open_answer(&json, &diff_command, &refused);
        json_number(&json, "memory", (int64_t)memory.len);
        json_open(&json, "cards", '[');
    }
    for (size_t i = 0; i < count; i++) {
        struct finding finding;
        judge_card(&reference, &here, &cards[i].files, &files, &finding, counts);
        tally.counts[finding.verdict]++;
        if (is_json) {
            json_card(&json, &cards[i], &finding);
        } else {
            print_card(&reference, &cards[i], &finding, &files, request->words[OPTION_ALL] != NULL);
        }
    }
    if (is_json) {
        json_close(&json, ']');
        close_answer(&json);
    }
    return tally_status(&tally);
}

static int read_and_diff(const struct request *request, const struct card *cards, size_t count)
{
    struct bytes sheet, memory;
    if (!read_sheet(request->files[0], &sheet)) {
        return FAILED;
    }
    int status = FAILED;
    if (read_memory(request->files[1], &memory)) {
        status = diff_cards(request, sheet, memory, cards, count);
        free(memory.at);
    }
    free(sheet.at);
    return status;
}

static int do_diff(const struct request *request)
{
    struct card *cards = calloc(request->repeated_count, sizeof cards[0]);
    if (cards == NULL) {
        complain("diff");
        return FAILED;
    }
    size_t count = 0;
    int status = parse_cards(request, cards, &count);
    if (status == DONE) {
        status = parse_files(request, cards, count);
    }
    if (status == DONE) {
        status = read_and_diff(request, cards, count);
    }
    free(cards);
    return status;
}

const struct command diff_command = {
    .name = "diff",
    .files = "SHEET MEMORY",
    .files_min = 2,
    .files_max = 2,
    .takes = SET(OPTION_CARD) | SET(OPTION_CARD_REGISTERS) | SET(OPTION_CARD_TRACE) | SET(OPTION_ALL) |
             SET(OPTION_JSON),
    .needs = SET(OPTION_CARD),
    .summary = "compare what cards left with what the sheet must leave",
    .details = "A line for each card: agrees, or the earliest step that made an element that differs, and the\n"
               "first difference in memory, with the last step and element that stores to that byte, in registers\n"
               "and in the trace:\n"
               "  card7 differs: step 2 fill r2, element 11 (0, 11); byte 300 wants 00, has 55; step 6 store r2,\n"
               "  element 11 (0, 11), byte 0 of 4; 12 bytes differ in 3 runs\n"
               "A run is bytes that differ, next to each other, which the same step stores, or none does.\n"
               "Exit status: 0 all agree, 1 some differ, 2 wrong use, 3 a file is missing or cannot be read,\n"
               "4 the sheet is refused.\n",
    .perform = do_diff,
};
