/*
 * Tries the text form and the diagnoses on each sheet of a folder, as `compare dump` writes them:
 *
 *   - the text of a sheet, of a refused one too, assembles to the sheet's bytes;
 *   - every sheet is shown;
 *   - of a refused sheet the cause is found, and of an accepted one's tape with one number changed and
 *     its trace with one byte changed or the end cut off;
 *   - an accepted sheet's masks are those that its trace gives, and say of each of its elements what the
 *     trace has;
 *   - of some elements of an accepted sheet's loads and stores the way is told, to the library's outcome,
 *     which has what the trace has.
 *
 *   sheets FOLDER
 */
#define _POSIX_C_SOURCE 200809L

#include <dirent.h>
#include <inttypes.h>
#include <limits.h>
#include <stdbool.h>
#include <stdio.h>
#include <stdlib.h>
#include <string.h>

#include "diagnose.h"
#include "files.h"
#include "moonbleat.h"
#include "round_trip.h"
#include "show.h"
#include "traces.h"
#include "where.h"

static size_t sheets, failed, refused[MOONBLEAT_REFUSED_RECORD + 1], refused_traces[MOONBLEAT_REFUSED_TRACE_ORDER + 1];
static size_t read_sheets[MOONBLEAT_EDITION_MAX + 1]; /* by edition */
static size_t sorts[MOONBLEAT_SORT_BYTE + 1], sides[MOONBLEAT_SIDE_ABOVE + 1]; /* of outcomes */
static size_t masked[2]; /* elements by masks: not touched, touched */
static FILE *nowhere;

/* The refusals of a trace's own fields. */
static const size_t of_traces[] = {MOONBLEAT_REFUSED_CUT_SHORT, MOONBLEAT_REFUSED_TAG, MOONBLEAT_REFUSED_LENGTH,
                                   MOONBLEAT_REFUSED_NUMBER, MOONBLEAT_REFUSED_TRACE_ORDER};

static void fail(const char *name, const char *what)
{
    failed++;
    printf("FAILED: %s: %s\n", name, what);
}

static void try_text(const char *name, const struct bytes *sheet)
{
    uint32_t counts[MOONBLEAT_COUNTS], answer[MOONBLEAT_ANSWER];
    const struct refused read = {.sheet = sheet->at, .sheet_len = sheet->len, .answer = answer};
    if (moonbleat_read(sheet->at, sheet->len, counts, answer) == 0) {
        read_sheets[edition_of(sheet->at, sheet->len)]++;
        show_sheet(nowhere, sheet->at, sheet->len);
    } else {
        show_refused_sheet(nowhere, sheet->at, sheet->len, readable_bytes(&read), "");
    }
    if (!comes_back(&read)) {
        fail(name, "the text gives other bytes");
    }
}

/* Counts a refusal by its number; its cause must be found. */
static void expect_cause(const char *name, const struct refused *input, size_t *counts)
{
    struct text cause;
    uint32_t number = input->answer[MOONBLEAT_NUMBER];
    if (number == 0 || number == MOONBLEAT_REFUSED_MEMORY) {
        return;
    }
    counts[number]++;
    if (!diagnose(input, &cause)) {
        printf("FAILED: %s: refusal %" PRIu32 " at %" PRIu32 " %" PRIu32 " has no cause\n", name, number,
               input->answer[MOONBLEAT_PLACE], input->answer[MOONBLEAT_SECOND_PLACE]);
        failed++;
    }
}

/* Runs the tape of an accepted sheet with some number of it changed, another one for each sheet. */
static void try_tape(const char *name, const struct bytes *sheet, size_t memory_len,
                     const struct translation *translation)
{
    static const int32_t others[] = {-1, 0, 1, 4, 5, 17, 256, 65535, 65536, INT32_MIN, INT32_MAX};
    static struct tape tape;
    static uint8_t memory[MOONBLEAT_MEMORY_MAX];
    static uint32_t elements[MOONBLEAT_ELEMENTS];
    uint8_t types[MOONBLEAT_TYPES];
    uint32_t answer[MOONBLEAT_ANSWER];
    tape.records = translation->records[0];
    if (tape.records == 0) {
        return;
    }
    memcpy(tape.numbers, translation->tape, sizeof translation->tape);
    size_t numbers = MOONBLEAT_RECORD_NUMBERS * tape.records;
    size_t sheet_number = strtoul(name, NULL, 10);
    tape.numbers[sheet_number * 7919 % numbers] = others[sheet_number % (sizeof others / sizeof others[0])];
    const struct refused ran = {.sheet = sheet->at, .sheet_len = sheet->len, .memory_len = memory_len, .tape = &tape,
                                .answer = answer};
    moonbleat_run(sheet->at, sheet->len, tape.numbers, numbers, tape.records, memory, memory_len, types, elements,
                  answer);
    expect_cause(name, &ran, refused);
}

/* Replays the trace of an accepted sheet with some byte of it changed, or, of each fifth sheet, some of its
 * last field cut off. */
static void try_trace(const char *name, const struct bytes *sheet, size_t memory_len)
{
    enum { EACH_CUT = 5 };
    static const uint8_t others[] = {0, 1, 2, 3, 4, 8, 9, 10, 0x30, 0x31, 255};
    static uint8_t room[MOONBLEAT_TRACE_MAX];
    uint32_t verdict[MOONBLEAT_VERDICT], answer[MOONBLEAT_ANSWER];
    moonbleat_trace(sheet->at, sheet->len, memory_len, room, sizeof room, answer);
    struct bytes trace = {room, answer[MOONBLEAT_BYTE_ELEMENTS]};
    if (trace.len == 0) {
        return;
    }
    size_t sheet_number = strtoul(name, NULL, 10);
    if (sheet_number % EACH_CUT == 0) {
        trace.len -= sheet_number / EACH_CUT % MOONBLEAT_ACCESS_BYTES;
    } else {
        room[sheet_number * 7919 % trace.len] = others[sheet_number % sizeof others];
    }
    const struct refused replayed = {.sheet = sheet->at, .sheet_len = sheet->len, .memory_len = memory_len,
                                     .trace = &trace, .answer = answer};
    moonbleat_replay(sheet->at, sheet->len, memory_len, trace.at, trace.len, verdict, answer);
    expect_cause(name, &replayed, refused_traces);
}

/* The masks that a trace gives: a bit for each access with a byte, and how many there are. */
static void masks_of(const uint8_t *trace, size_t count, uint8_t masks[MOONBLEAT_MASKS])
{
    memset(masks, 0, MOONBLEAT_MASKS);
    for (size_t i = 0; i < count; i++) {
        struct entry entry = entry_at(trace, i);
        if (entry.sort == MOONBLEAT_SORT_BYTE) {
            uint8_t *mask = masks + (size_t)MOONBLEAT_MASK_BYTES * entry.step;
            mask[entry.element / CHAR_BIT] |= (uint8_t)(1u << entry.element % CHAR_BIT);
            if (++mask[MOONBLEAT_MASK_COUNT] == 0) {
                mask[MOONBLEAT_MASK_COUNT + 1]++;
            }
        }
    }
}

static void try_masks(const char *name, const struct refused *accepted, const struct translation *translation)
{
    static uint8_t trace[MOONBLEAT_TRACE_MAX];
    uint8_t masks[MOONBLEAT_MASKS];
    uint32_t answer[MOONBLEAT_ANSWER];
    if (translation->answer[MOONBLEAT_NUMBER] != 0) {
        return;
    }
    moonbleat_trace(accepted->sheet, accepted->sheet_len, accepted->memory_len, trace, sizeof trace, answer);
    size_t count = answer[MOONBLEAT_BYTE_ELEMENTS] / MOONBLEAT_ACCESS_BYTES;
    masks_of(trace, count, masks);
    if (memcmp(translation->masks, masks, sizeof masks) != 0) {
        fail(name, "the trace gives other masks");
    }
    for (size_t i = 0; i < count; i++) {
        struct entry entry = entry_at(trace, i);
        bool touched = is_touched(translation->masks, entry.step, entry.element);
        masked[touched]++;
        if (touched != (entry.sort == MOONBLEAT_SORT_BYTE)) {
            fail(name, "the trace has another answer than the masks");
        }
    }
}

static void try_way(const char *name, const struct refused *accepted, const struct translation *translation,
                    const struct entry *entry)
{
    static struct way way;
    struct where where;
    struct told told;
    struct place place;
    struct text fault = {.len = 0};
    if (!find_where(accepted, translation, entry->step, &where) ||
        !find_outcome(&where, entry->element, &told, &place, &fault)) {
        fail(name, fault.len > 0 ? fault.at : "no load or store is found");
        return;
    }
    tell_way(&where, entry->element, &place, &told, &way);
    bool has_byte = entry->sort == MOONBLEAT_SORT_BYTE;
    if (told.numbers[MOONBLEAT_OUTCOME_SORT] != entry->sort ||
        (has_byte && told.numbers[MOONBLEAT_OUTCOME_VALUE] != entry->byte)) {
        fail(name, "the trace has another outcome");
        return;
    }
    sorts[entry->sort]++;
    sides[told.numbers[MOONBLEAT_OUTCOME_SIDE]]++;
}

/* Some elements of an accepted sheet: about so many, from all over its trace. */
static void try_ways(const char *name, const struct refused *accepted, const struct translation *translation)
{
    enum { TRIED = 16 };
    static uint8_t trace[MOONBLEAT_TRACE_MAX];
    uint32_t answer[MOONBLEAT_ANSWER];
    moonbleat_trace(accepted->sheet, accepted->sheet_len, accepted->memory_len, trace, sizeof trace, answer);
    size_t count = answer[MOONBLEAT_BYTE_ELEMENTS] / MOONBLEAT_ACCESS_BYTES;
    for (size_t i = 0; i < count; i += 1 + count / TRIED) {
        struct entry entry = entry_at(trace, i);
        try_way(name, accepted, translation, &entry);
    }
}

static void try_diagnosis(const char *name, const struct bytes *sheet, size_t memory_len)
{
    static struct translation translation;
    uint32_t answer[MOONBLEAT_ANSWER];
    const struct refused checked = {.sheet = sheet->at, .sheet_len = sheet->len, .memory_len = memory_len,
                                    .answer = answer};
    if (moonbleat_check(sheet->at, sheet->len, memory_len, answer) == 0) {
        translate(sheet, memory_len, &translation);
        try_tape(name, sheet, memory_len, &translation);
        try_trace(name, sheet, memory_len);
        try_masks(name, &checked, &translation);
        try_ways(name, &checked, &translation);
    } else {
        expect_cause(name, &checked, refused);
    }
}

/* A file is called NUMBER-MEMORY-EDITION.sheet. */
static void try_file(const char *folder, const char *name)
{
    char path[512];
    struct bytes sheet;
    const char *memory = strchr(name, '-');
    if (memory == NULL) {
        return;
    }
    snprintf(path, sizeof path, "%s/%s", folder, name);
    if (!read_file(path, SHEET_LIMIT, &sheet)) {
        failed++;
        return;
    }
    sheets++;
    try_text(name, &sheet);
    try_diagnosis(name, &sheet, strtoul(memory + 1, NULL, 10));
    free(sheet.at);
}

int main(int argc, char **argv)
{
    DIR *folder = argc == 2 ? opendir(argv[1]) : NULL;
    nowhere = fopen("/dev/null", "w");
    if (folder == NULL || nowhere == NULL) {
        fputs("usage: sheets FOLDER\n", stderr);
        return 2;
    }
    for (const struct dirent *entry = readdir(folder); entry != NULL; entry = readdir(folder)) {
        try_file(argv[1], entry->d_name);
    }
    closedir(folder);
    fclose(nowhere);
    printf("sheets put through their text: %zu", sheets);
    bool all_met = print_editions(read_sheets);
    printf("\n");
    if (!all_met) {
        fail(argv[1], "an edition was not met");
    }
    printf("refused by number:");
    for (size_t number = 1; number <= MOONBLEAT_REFUSED_RECORD; number++) {
        printf(" %zu:%zu", number, refused[number]);
        /* The tape's length is not asked for. */
        if (refused[number] == 0 && number != MOONBLEAT_REFUSED_TAPE_LENGTH) {
            fail(argv[1], "a refusal was not met");
        }
    }
    printf("\nrefused traces by number:");
    for (size_t i = 0; i < sizeof of_traces / sizeof of_traces[0]; i++) {
        printf(" %zu:%zu", of_traces[i], refused_traces[of_traces[i]]);
        if (refused_traces[of_traces[i]] == 0) {
            fail(argv[1], "a refusal of a trace was not met");
        }
    }
    printf("\noutcomes by sort:");
    for (uint32_t sort = 0; sort <= MOONBLEAT_SORT_BYTE; sort++) {
        printf(" %s:%zu", sort_name(sort), sorts[sort]);
        if (sorts[sort] == 0) {
            fail(argv[1], "a sort of outcome was not met");
        }
    }
    printf(", by side:");
    for (uint32_t side = 0; side <= MOONBLEAT_SIDE_ABOVE; side++) {
        printf(" %s:%zu", side_name(side), sides[side]);
        if (sides[side] == 0) {
            fail(argv[1], "a side was not met");
        }
    }
    printf("\nelements by masks: touched:%zu not touched:%zu", masked[true], masked[false]);
    if (masked[true] == 0 || masked[false] == 0) {
        fail(argv[1], "an answer of masks was not met");
    }
    printf("\n%zu failed\n", failed);
    return failed != 0;
}
