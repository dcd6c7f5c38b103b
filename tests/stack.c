/*
 * Holds the header's MOONBLEAT_STACK: every function is called on each sheet that is named, on a
 * stack of its own that was painted before, and the bytes that lost their paint are counted.
 *
 *   stack SHEET..
 */
#define _XOPEN_SOURCE 700

#include <stdio.h>
#include <stdlib.h>
#include <string.h>
#include <ucontext.h>

#include "files.h"
#include "moonbleat.h"
#include "traces.h"

enum { STACK = 1 << 18, PAINT = 0xA5 };

/* What every function is lent. */
static struct {
    struct bytes sheet;
    uint8_t memory[MOONBLEAT_MEMORY_MAX];
    uint8_t out[MOONBLEAT_SHEET_MAX];
    int32_t tape[MOONBLEAT_TAPE_NUMBERS];
    uint8_t masks[MOONBLEAT_MASKS];
    uint32_t records[1];
    uint8_t trace[MOONBLEAT_TRACE_MAX];
    size_t trace_len;
    uint32_t verdict[MOONBLEAT_VERDICT];
    uint32_t outcome[MOONBLEAT_OUTCOME];
    uint32_t counts[MOONBLEAT_COUNTS];
    uint8_t types[MOONBLEAT_TYPES];
    uint32_t elements[MOONBLEAT_ELEMENTS];
    uint32_t answer[MOONBLEAT_ANSWER];
} lent;

static void do_read(void)
{
    moonbleat_read(lent.sheet.at, lent.sheet.len, lent.counts, lent.answer);
}

static void do_rewrite(void)
{
    moonbleat_rewrite(lent.sheet.at, lent.sheet.len, lent.out, sizeof lent.out, lent.answer);
}

static void do_check(void)
{
    moonbleat_check(lent.sheet.at, lent.sheet.len, sizeof lent.memory, lent.answer);
}

static void do_carry_out(void)
{
    moonbleat_carry_out(lent.sheet.at, lent.sheet.len, lent.memory, sizeof lent.memory, lent.types, lent.elements,
                        lent.answer);
}

static void do_translate(void)
{
    moonbleat_translate(lent.sheet.at, lent.sheet.len, sizeof lent.memory, lent.tape, MOONBLEAT_TAPE_NUMBERS,
                        lent.masks, sizeof lent.masks, lent.records, lent.answer);
}

/* The tape that the function above made of the same sheet. */
static void do_run(void)
{
    moonbleat_run(lent.sheet.at, lent.sheet.len, lent.tape, MOONBLEAT_TAPE_NUMBERS, lent.records[0], lent.memory,
                  sizeof lent.memory, lent.types, lent.elements, lent.answer);
}

/* The last element of the masks that were made with it. */
static void do_touched(void)
{
    moonbleat_touched(lent.masks, sizeof lent.masks, MOONBLEAT_STEPS_MAX - 1, MOONBLEAT_REGISTER_ELEMENTS - 1);
}

static void do_trace(void)
{
    moonbleat_trace(lent.sheet.at, lent.sheet.len, sizeof lent.memory, lent.trace, sizeof lent.trace, lent.answer);
    lent.trace_len = lent.answer[MOONBLEAT_BYTE_ELEMENTS];
}

/* The trace that the function above made of the same sheet. */
static void do_replay(void)
{
    moonbleat_replay(lent.sheet.at, lent.sheet.len, sizeof lent.memory, lent.trace, lent.trace_len, lent.verdict,
                     lent.answer);
}

static void do_divisions(void)
{
    moonbleat_divisions(lent.sheet.at, lent.sheet.len, sizeof lent.memory, lent.answer);
}

/* The last load or store of the sheet, and its last element, by the trace that was made of it; without
 * one, step 0. */
static void do_outcome(void)
{
    struct entry last = {.step = 0};
    if (lent.trace_len > 0) {
        last = entry_at(lent.trace, lent.trace_len / MOONBLEAT_ACCESS_BYTES - 1);
    }
    moonbleat_outcome(lent.sheet.at, lent.sheet.len, sizeof lent.memory, last.step, last.element, lent.outcome,
                      lent.answer);
}

static struct {
    const char *name;
    void (*call)(void);
    size_t most;
} functions[] = {
    {"moonbleat_read", do_read, 0},           {"moonbleat_rewrite", do_rewrite, 0},
    {"moonbleat_check", do_check, 0},         {"moonbleat_carry_out", do_carry_out, 0},
    {"moonbleat_translate", do_translate, 0}, {"moonbleat_run", do_run, 0},
    {"moonbleat_touched", do_touched, 0},     {"moonbleat_trace", do_trace, 0},
    {"moonbleat_replay", do_replay, 0},       {"moonbleat_divisions", do_divisions, 0},
    {"moonbleat_outcome", do_outcome, 0},
};

enum { FUNCTIONS = sizeof functions / sizeof functions[0] };

/* Bytes of stack that a call used, those of this program's own frames included. */
static size_t stack_of(void (*call)(void))
{
    static uint8_t stack[STACK];
    ucontext_t here, there;
    memset(stack, PAINT, sizeof stack);
    if (getcontext(&there) != 0) {
        return STACK;
    }
    there.uc_stack.ss_sp = stack;
    there.uc_stack.ss_size = sizeof stack;
    there.uc_link = &here;
    makecontext(&there, call, 0);
    if (swapcontext(&here, &there) != 0) {
        return STACK;
    }
    size_t untouched = 0;
    while (untouched < sizeof stack && stack[untouched] == PAINT) {
        untouched++;
    }
    return sizeof stack - untouched;
}

int main(int argc, char **argv)
{
    for (int i = 1; i < argc; i++) {
        if (!read_file(argv[i], SHEET_LIMIT, &lent.sheet)) {
            return 1;
        }
        for (size_t f = 0; f < FUNCTIONS; f++) {
            size_t used = stack_of(functions[f].call);
            functions[f].most = used > functions[f].most ? used : functions[f].most;
        }
        free(lent.sheet.at);
    }
    int status = argc < 2;
    for (size_t f = 0; f < FUNCTIONS; f++) {
        printf("%s: %zu bytes of stack\n", functions[f].name, functions[f].most);
        status |= functions[f].most > MOONBLEAT_STACK;
    }
    puts(status == 0 ? "the header's bound holds" : "FAILED: more stack than the header says");
    return status;
}
