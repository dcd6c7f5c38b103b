#include "show_files.h"

#include <inttypes.h>
#include <stdio.h>

#include "answers.h"
#include "fields.h"
#include "forms.h"
#include "tape_text.h"
#include "traces.h"
#include "translation.h"

/* -- Traces ------------------------------------------------------------------------------------ */

/* A trace is judged beside a sheet; this one has no steps. */
static const uint8_t empty_sheet[] = {MOONBLEAT_TAG_EDITION, 1, 0, 1};

static void print_accesses(const struct refused *read, size_t count)
{
    for (size_t i = 0; i < count; i++) {
        struct entry entry = entry_at(read->trace->at, i);
        struct text line = {.len = 0};
        add_entry(&line, read, &entry);
        printf("%zu: %s\n", i, line.at);
    }
}

static void print_trace(const struct refused *read, size_t readable)
{
    size_t count = readable / MOONBLEAT_ACCESS_BYTES, left = read->trace->len - readable;
    bool accepted = read->answer[MOONBLEAT_NUMBER] == 0;
    printf("trace: %zu bytes, ", read->trace->len);
    accepted ? printf("%zu access%s\n", count, count == 1 ? "" : "es") : puts("refused");
    print_accesses(read, count);
    if (!accepted) {
        printf("^ %s\n%zu more byte%s\n", refusal_line(read).at, left, plural(left));
    }
}

static void print_trace_json(const struct refused *read, size_t readable)
{
    struct json json = {false};
    open_answer(&json, &show_command, read);
    json_text(&json, "form", form_name(FORM_TRACE));
    json_number(&json, "bytes", (int64_t)read->trace->len);
    json_accesses(&json, read->trace->at, readable / MOONBLEAT_ACCESS_BYTES);
    close_answer(&json);
}

int show_trace(const struct request *request, const struct bytes *file)
{
    uint32_t verdict[MOONBLEAT_VERDICT] = {0}, answer[MOONBLEAT_ANSWER] = {0};
    const struct refused read = {.sheet = empty_sheet, .sheet_len = sizeof empty_sheet, .trace = file,
                                 .answer = answer};
    if (!is_trace_length(request->files[0], file)) {
        return FAILED;
    }
    bool accepted = moonbleat_replay(empty_sheet, sizeof empty_sheet, 0, file->at, file->len, verdict, answer) == 0;
    size_t readable = accepted ? file->len : answer[MOONBLEAT_PLACE];
    if (request->words[OPTION_JSON] != NULL) {
        print_trace_json(&read, readable);
        return accepted ? DONE : REFUSED;
    }
    print_trace(&read, readable);
    return accepted ? DONE : answer_refusal(&show_command, request, &read);
}

/* -- Tapes ------------------------------------------------------------------------------------- */

static void print_record(const int32_t *record)
{
    int32_t reg = record[RECORD_REGISTER], first = record[RECORD_FIRST], count = record[RECORD_COUNT];
    int32_t byte = record[RECORD_BYTE], step = record[RECORD_STEP];
    switch (record[RECORD_OP]) {
    case MOONBLEAT_OP_COPY:
        printf("copy register %" PRId32 " to register %" PRId32, record[RECORD_OBJECT], reg);
        break;
    case MOONBLEAT_OP_TAKE:
    case MOONBLEAT_OP_PUT:
        printf("%s register %" PRId32 ", %" PRId32 " from element %" PRId32 " on, byte %" PRId32 ", step %" PRId32,
               record[RECORD_OP] == MOONBLEAT_OP_TAKE ? "take into" : "put from", reg, count, first, byte, step);
        break;
    case MOONBLEAT_OP_FILL:
        printf("fill register %" PRId32 ", %" PRId32 " from element %" PRId32 " on, with bits %" PRId32, reg, count,
               first, record[RECORD_BITS]);
        break;
    case MOONBLEAT_OP_STEP:
        printf("whole step %" PRId32, record[RECORD_WHOLE_STEP]);
        break;
    default:
        printf("no op has number %" PRId32, record[RECORD_OP]);
    }
    putchar('\n');
}

static void print_tape_json(const struct tape *tape)
{
    struct json json = {false};
    const uint32_t answer[MOONBLEAT_ANSWER] = {0};
    open_answer(&json, &show_command, &(struct refused){.answer = answer});
    json_text(&json, "form", form_name(FORM_TAPE));
    json_records(&json, tape->numbers, tape->records);
    close_answer(&json);
}

int show_tape(const struct request *request, const struct bytes *file)
{
    static struct tape tape;
    if (!take_tape(request->files[0], file, &tape)) {
        return FAILED;
    }
    if (tape.records > MOONBLEAT_RECORDS_MAX) {
        complain_of(request->files[0], "a tape has at most %d records", MOONBLEAT_RECORDS_MAX);
        return FAILED;
    }
    if (request->words[OPTION_JSON] != NULL) {
        print_tape_json(&tape);
        return DONE;
    }
    printf("tape: %zu record%s\n", tape.records, plural(tape.records));
    for (size_t i = 0; i < tape.records; i++) {
        printf("%zu: ", i);
        print_record(tape.numbers + MOONBLEAT_RECORD_NUMBERS * i);
    }
    return DONE;
}

/* -- Masks ------------------------------------------------------------------------------------- */

static unsigned count_touched(const uint8_t *masks, uint32_t step)
{
    unsigned count = 0;
    for (uint32_t element = 0; element < MOONBLEAT_REGISTER_ELEMENTS; element++) {
        count += is_touched(masks, step, element);
    }
    return count;
}

/* Prints "2 to 5, 7": the elements of a step, in runs. */
static void print_elements(const uint8_t *masks, uint32_t step)
{
    const char *before = " ";
    for (uint32_t first = 0; first < MOONBLEAT_REGISTER_ELEMENTS; first++) {
        if (is_touched(masks, step, first)) {
            uint32_t last = first;
            while (is_touched(masks, step, last + 1)) {
                last++;
            }
            printf("%s%" PRIu32, before, first);
            if (last > first) {
                printf(" to %" PRIu32, last);
            }
            before = ", ";
            first = last;
        }
    }
}

/* Prints a step's mask, if it says anything; whether it did. */
static bool print_mask(const uint8_t *masks, uint32_t step)
{
    unsigned count = count_touched(masks, step);
    uint32_t told = little(masks + (size_t)MOONBLEAT_MASK_BYTES * step + MOONBLEAT_MASK_COUNT, 2);
    if (count == 0 && told == 0) {
        return false;
    }
    printf("step %" PRIu32 ": %u element%s%s", step, count, plural(count), count == 0 ? "" : ":");
    print_elements(masks, step);
    if (told != count) {
        printf("; its count is %" PRIu32, told);
    }
    putchar('\n');
    return true;
}

static void print_masks_json(const uint8_t *masks)
{
    struct json json = {false};
    const uint32_t answer[MOONBLEAT_ANSWER] = {0};
    open_answer(&json, &show_command, &(struct refused){.answer = answer});
    json_text(&json, "form", form_name(FORM_MASKS));
    json_masks(&json, masks);
    close_answer(&json);
}

int show_masks(const struct request *request, const struct bytes *file)
{
    if (!is_masks_length(request->files[0], file)) {
        return FAILED;
    }
    if (request->words[OPTION_JSON] != NULL) {
        print_masks_json(file->at);
        return DONE;
    }
    unsigned quiet = MOONBLEAT_STEPS_MAX;
    printf("masks: %d steps\n", MOONBLEAT_STEPS_MAX);
    for (uint32_t step = 0; step < MOONBLEAT_STEPS_MAX; step++) {
        quiet -= print_mask(file->at, step);
    }
    printf("%u step%s: nothing\n", quiet, plural(quiet));
    return DONE;
}
