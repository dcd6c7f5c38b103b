/* replay: what a card did, by its trace, beside what the sheet says. */
#include <stdio.h>
#include <stdlib.h>

#include "answers.h"
#include "command.h"
#include "files.h"
#include "sheet_file.h"
#include "traces.h"

/* The accesses of a trace. */
struct list {
    const uint8_t *trace;
    size_t count;
};

/* What the library says of an accepted trace. */
struct replay {
    struct list rules;
    struct list card;
    bool agrees;
    size_t index; /* of the first difference */
};

static void print_access(const char *label, const struct refused *replayed, const struct list *list, size_t index)
{
    struct text line = {.len = 0};
    if (index < list->count) {
        struct entry entry = entry_at(list->trace, index);
        add_entry(&line, replayed, &entry);
    } else {
        add_text(&line, "nothing more");
    }
    printf("  %-10s %s\n", label, line.at);
}

static void print_replay(const struct refused *replayed, const struct replay *replay)
{
    size_t count = replay->rules.count;
    if (replay->agrees) {
        printf("agrees, %zu access%s\n", count, count == 1 ? "" : "es");
        return;
    }
    printf("differs at access %zu: the rules have %zu, the card %zu\n", replay->index, count, replay->card.count);
    print_access("the rules:", replayed, &replay->rules, replay->index);
    print_access("the card:", replayed, &replay->card, replay->index);
}

static void json_access(struct json *json, const char *key, const struct list *list, size_t index)
{
    if (index < list->count) {
        struct entry entry = entry_at(list->trace, index);
        json_entry(json, key, &entry);
    } else {
        json_null(json, key);
    }
}

static void print_json(const struct refused *replayed, const struct replay *replay)
{
    struct json json = {false};
    open_answer(&json, &replay_command, replayed);
    json_number(&json, "memory", (int64_t)replayed->memory_len);
    json_flag(&json, "agrees", replay->agrees);
    json_number(&json, "expected", (int64_t)replay->rules.count);
    json_number(&json, "recorded", (int64_t)replay->card.count);
    if (replay->agrees) {
        json_null(&json, "difference");
    } else {
        json_open(&json, "difference", '{');
        json_number(&json, "index", (int64_t)replay->index);
        json_access(&json, "rules", &replay->rules, replay->index);
        json_access(&json, "card", &replay->card, replay->index);
        json_close(&json, '}');
    }
    close_answer(&json);
}

static int answer_replay(const struct request *request, const struct refused *replayed, const struct replay *replay)
{
    if (request->words[OPTION_JSON] == NULL) {
        print_replay(replayed, replay);
    } else {
        print_json(replayed, replay);
    }
    return replay->agrees ? DONE : DIFFER;
}

/* The sheet is judged first, so it is the trace that is refused where the sheet is accepted. */
static int refuse(const struct request *request, struct refused *refused, const struct bytes *trace)
{
    uint32_t answer[MOONBLEAT_ANSWER] = {0};
    if (moonbleat_check(refused->sheet, refused->sheet_len, refused->memory_len, answer) == 0) {
        refused->trace = trace;
    }
    answer_refusal(&replay_command, request, refused);
    return INPUT_REFUSED;
}

static int replay_trace(const struct request *request, const struct bytes *sheet, const struct bytes *trace)
{
    static uint8_t rules[MOONBLEAT_TRACE_MAX];
    uint32_t verdict[MOONBLEAT_VERDICT] = {0}, answer[MOONBLEAT_ANSWER] = {0}, traced[MOONBLEAT_ANSWER] = {0};
    struct refused replayed = {.sheet = sheet->at, .sheet_len = sheet->len, .memory_len = request->memory,
                               .answer = answer};
    if (moonbleat_replay(sheet->at, sheet->len, request->memory, trace->at, trace->len, verdict, answer) != 0) {
        return refuse(request, &replayed, trace);
    }
    moonbleat_trace(sheet->at, sheet->len, request->memory, rules, sizeof rules, traced);
    const struct replay replay = {
        .rules = {rules, traced[MOONBLEAT_BYTE_ELEMENTS] / MOONBLEAT_ACCESS_BYTES},
        .card = {trace->at, trace->len / MOONBLEAT_ACCESS_BYTES},
        .agrees = verdict[MOONBLEAT_AGREES] == 1,
        .index = verdict[MOONBLEAT_INDEX],
    };
    return answer_replay(request, &replayed, &replay);
}

static int do_replay(const struct request *request)
{
    struct bytes sheet, trace;
    if (!read_sheet(request->files[0], &sheet)) {
        return FAILED;
    }
    int status = FAILED;
    if (read_file(request->files[1], (size_t)TRACE_FILE_MAX + 1, &trace)) {
        if (is_trace_length(request->files[1], &trace)) {
            status = replay_trace(request, &sheet, &trace);
        }
        free(trace.at);
    }
    free(sheet.at);
    return status;
}

const struct command replay_command = {
    .name = "replay",
    .files = "SHEET TRACE",
    .files_min = 2,
    .files_max = 2,
    .takes = SET(OPTION_MEMORY) | SET(OPTION_JSON),
    .summary = "compare a card's trace with what the sheet says, without a memory",
    .details = "TRACE is what a card recorded: a field for each element of each load and store, as trace -o\n"
               "writes them. It agrees, or differs at an access, counted from 0, where one of both may have ended:\n"
               "  differs at access 2: the rules have 8, the card 8\n"
               "    the rules: step 1 (load), element 2: byte 0\n"
               "    the card:  step 1 (load), element 2: byte 4\n"
               "Exit status: 0 agrees, 1 differs, 2 wrong use, 3 a file cannot be read, 4 the sheet or the trace\n"
               "is refused.\n",
    .perform = do_replay,
};
