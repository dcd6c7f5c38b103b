/* trace: what a card must record of a sheet. */
#include <stdio.h>
#include <stdlib.h>

#include "answers.h"
#include "command.h"
#include "files.h"
#include "outputs.h"
#include "sheet_file.h"
#include "traces.h"

static void print_lines(const struct refused *traced, const uint8_t *trace, size_t count)
{
    for (size_t i = 0; i < count; i++) {
        struct entry entry = entry_at(trace, i);
        struct text line = {.len = 0};
        add_entry(&line, traced, &entry);
        printf("%zu: %s\n", i, line.at);
    }
}

static void print_json(const struct refused *traced, const uint8_t *trace, size_t count)
{
    struct json json = {false};
    open_answer(&json, &trace_command, traced);
    json_number(&json, "memory", (int64_t)traced->memory_len);
    json_accesses(&json, trace, count);
    close_answer(&json);
}

static int give_trace(const struct request *request, const struct refused *traced, const uint8_t *trace, size_t len)
{
    size_t count = len / MOONBLEAT_ACCESS_BYTES;
    const struct output output = {request->words[OPTION_OUT], trace, len, NULL};
    if (!write_outputs(&output, 1)) {
        return FAILED;
    }
    if (request->words[OPTION_JSON] != NULL) {
        print_json(traced, trace, count);
    } else if (output.name == NULL) {
        print_lines(traced, trace, count);
    }
    return DONE;
}

static int do_trace(const struct request *request)
{
    static uint8_t trace[MOONBLEAT_TRACE_MAX];
    struct bytes sheet;
    if (!read_sheet(request->files[0], &sheet)) {
        return FAILED;
    }
    uint32_t answer[MOONBLEAT_ANSWER] = {0};
    const struct refused traced = {.sheet = sheet.at, .sheet_len = sheet.len, .memory_len = request->memory,
                                   .answer = answer};
    uint32_t number = moonbleat_trace(sheet.at, sheet.len, request->memory, trace, sizeof trace, answer);
    int status = number == 0 ? give_trace(request, &traced, trace, answer[MOONBLEAT_BYTE_ELEMENTS])
                             : answer_refusal(&trace_command, request, &traced);
    free(sheet.at);
    return status;
}

const struct command trace_command = {
    .name = "trace",
    .files = "SHEET",
    .files_min = 1,
    .files_max = 1,
    .takes = SET(OPTION_MEMORY) | SET(OPTION_OUT) | SET(OPTION_JSON),
    .out = "the trace, which is then not printed,",
    .summary = "print what becomes of each element of the sheet's loads and stores, or write it as a trace",
    .details = "One access a line, from 0 on, with step, element and what becomes of it: skipped (outside the\n"
               "view's clip), filled or discarded (outside the tensor), or its byte in memory:\n"
               "  2: step 1 (load), element 2: byte 0\n"
               "With -o the trace's bytes are written in place of the lines, as a card must record them: 12 an\n"
               "access, which docs/SHEETS.md describes.\n",
    .perform = do_trace,
};
