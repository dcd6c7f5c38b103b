/* Holds the header's word on pointers: each slice may be NULL where its length is 0, and the answer
 * is then that of any other empty slice. */
#include <string.h>

#include "cases.h"
#include "moonbleat.h"

/* What a function may fill. */
struct result {
    uint32_t returned;
    uint32_t counts[MOONBLEAT_COUNTS];
    int32_t tape[MOONBLEAT_TAPE_NUMBERS];
    uint8_t masks[MOONBLEAT_MASKS];
    uint32_t records[1];
    uint32_t verdict[MOONBLEAT_VERDICT];
    uint32_t outcome[MOONBLEAT_OUTCOME];
    uint8_t types[MOONBLEAT_TYPES];
    uint32_t elements[MOONBLEAT_ELEMENTS];
    uint32_t answer[MOONBLEAT_ANSWER];
};

/* Edition 1, and a fill of register 0, which needs no memory. */
static const uint8_t fill_sheet[] = {0x01, 1, 0, 1, 0x20, 8, 0, 0, 1, 4, 0, 7, 0, 0, 0};

/* Strip 4's sheet, which loads 8 elements from 4 bytes. */
static const uint8_t load_sheet[] = {
    0x01, 1,  0, 1,                                                    /* edition 1 */
    0x10, 16, 0, 1, 4, 0, 0, 0, 0, 1, 0, 4, 0, 1, 0, 0xFE, 0xFF, 8, 0, /* a layout */
    0x20, 8,  0, 0, 1, 8, 0, 0, 0, 0, 0,                               /* a fill */
    0x21, 8,  0, 1, 0, 0, MOONBLEAT_NONE, 0, 0, 0, 0,                  /* a load */
};
enum { LOAD_MEMORY = 4 };

/* Calls a function with empty slices that begin at `nothing`. */
typedef void call(uint8_t *nothing, int32_t *no_numbers, struct result *result);

static void read_nothing(uint8_t *nothing, int32_t *no_numbers, struct result *result)
{
    (void)no_numbers;
    result->returned = moonbleat_read(nothing, 0, result->counts, result->answer);
}

static void rewrite_nothing(uint8_t *nothing, int32_t *no_numbers, struct result *result)
{
    (void)no_numbers;
    result->returned = moonbleat_rewrite(nothing, 0, nothing, 0, result->answer);
}

static void rewrite_to_nothing(uint8_t *nothing, int32_t *no_numbers, struct result *result)
{
    (void)no_numbers;
    result->returned = moonbleat_rewrite(fill_sheet, sizeof fill_sheet, nothing, 0, result->answer);
}

static void check_nothing(uint8_t *nothing, int32_t *no_numbers, struct result *result)
{
    (void)no_numbers;
    result->returned = moonbleat_check(nothing, 0, 0, result->answer);
}

static void carry_out_nothing(uint8_t *nothing, int32_t *no_numbers, struct result *result)
{
    (void)no_numbers;
    result->returned =
        moonbleat_carry_out(nothing, 0, nothing, 0, result->types, result->elements, result->answer);
}

static void carry_out_on_nothing(uint8_t *nothing, int32_t *no_numbers, struct result *result)
{
    (void)no_numbers;
    result->returned = moonbleat_carry_out(fill_sheet, sizeof fill_sheet, nothing, 0, result->types, result->elements,
                                           result->answer);
}

static void translate_nothing(uint8_t *nothing, int32_t *no_numbers, struct result *result)
{
    result->returned =
        moonbleat_translate(nothing, 0, 0, no_numbers, 0, nothing, 0, result->records, result->answer);
}

static void translate_to_nothing(uint8_t *nothing, int32_t *no_numbers, struct result *result)
{
    (void)nothing;
    result->returned = moonbleat_translate(fill_sheet, sizeof fill_sheet, 0, no_numbers, 0, result->masks,
                                           sizeof result->masks, result->records, result->answer);
}

static void translate_with_no_masks(uint8_t *nothing, int32_t *no_numbers, struct result *result)
{
    (void)no_numbers;
    result->returned = moonbleat_translate(load_sheet, sizeof load_sheet, LOAD_MEMORY, result->tape,
                                           MOONBLEAT_TAPE_NUMBERS, nothing, 0, result->records, result->answer);
}

static void touched_by_nothing(uint8_t *nothing, int32_t *no_numbers, struct result *result)
{
    (void)no_numbers;
    result->returned = moonbleat_touched(nothing, 0, 0, 0);
}

static void run_nothing(uint8_t *nothing, int32_t *no_numbers, struct result *result)
{
    result->returned = moonbleat_run(nothing, 0, no_numbers, 0, 0, nothing, 0, result->types, result->elements,
                                     result->answer);
}

static void run_on_nothing(uint8_t *nothing, int32_t *no_numbers, struct result *result)
{
    result->returned = moonbleat_run(fill_sheet, sizeof fill_sheet, no_numbers, 0, 0, nothing, 0, result->types,
                                     result->elements, result->answer);
}

static void run_records_of_nothing(uint8_t *nothing, int32_t *no_numbers, struct result *result)
{
    result->returned = moonbleat_run(fill_sheet, sizeof fill_sheet, no_numbers, 0, 1, nothing, 0, result->types,
                                     result->elements, result->answer);
}

static void trace_nothing(uint8_t *nothing, int32_t *no_numbers, struct result *result)
{
    (void)no_numbers;
    result->returned = moonbleat_trace(nothing, 0, 0, nothing, 0, result->answer);
}

static void trace_to_nothing(uint8_t *nothing, int32_t *no_numbers, struct result *result)
{
    (void)no_numbers;
    result->returned =
        moonbleat_trace(load_sheet, sizeof load_sheet, LOAD_MEMORY, nothing, 0, result->answer);
}

static void trace_no_access_to_nothing(uint8_t *nothing, int32_t *no_numbers, struct result *result)
{
    (void)no_numbers;
    result->returned = moonbleat_trace(fill_sheet, sizeof fill_sheet, 0, nothing, 0, result->answer);
}

static void replay_for_nothing(uint8_t *nothing, int32_t *no_numbers, struct result *result)
{
    (void)no_numbers;
    result->returned = moonbleat_replay(nothing, 0, 0, nothing, 0, result->verdict, result->answer);
}

static void replay_nothing(uint8_t *nothing, int32_t *no_numbers, struct result *result)
{
    (void)no_numbers;
    result->returned = moonbleat_replay(load_sheet, sizeof load_sheet, LOAD_MEMORY, nothing, 0, result->verdict,
                                        result->answer);
}

static void replay_nothing_for_no_access(uint8_t *nothing, int32_t *no_numbers, struct result *result)
{
    (void)no_numbers;
    result->returned =
        moonbleat_replay(fill_sheet, sizeof fill_sheet, 0, nothing, 0, result->verdict, result->answer);
}

static void divisions_of_nothing(uint8_t *nothing, int32_t *no_numbers, struct result *result)
{
    (void)no_numbers;
    result->returned = moonbleat_divisions(nothing, 0, 0, result->answer);
}

static void outcome_of_nothing(uint8_t *nothing, int32_t *no_numbers, struct result *result)
{
    (void)no_numbers;
    result->returned = moonbleat_outcome(nothing, 0, 0, 0, 0, result->outcome, result->answer);
}

static const struct {
    const char *name;
    call *call;
    uint32_t returned;
} cases[] = {
    {"read nothing", read_nothing, MOONBLEAT_REFUSED_ORDER},
    {"rewrite nothing", rewrite_nothing, MOONBLEAT_REFUSED_ORDER},
    {"rewrite to nothing", rewrite_to_nothing, MOONBLEAT_REFUSED_ROOM},
    {"check nothing", check_nothing, MOONBLEAT_REFUSED_ORDER},
    {"carry out nothing", carry_out_nothing, MOONBLEAT_REFUSED_ORDER},
    {"carry out on nothing", carry_out_on_nothing, 0},
    {"translate nothing", translate_nothing, MOONBLEAT_REFUSED_ORDER},
    {"translate to nothing", translate_to_nothing, MOONBLEAT_REFUSED_TAPE_LENGTH},
    {"translate with no masks", translate_with_no_masks, MOONBLEAT_REFUSED_TAPE_LENGTH},
    {"touched by nothing", touched_by_nothing, 0},
    {"run nothing", run_nothing, MOONBLEAT_REFUSED_ORDER},
    {"run on nothing", run_on_nothing, 0},
    {"run records of nothing", run_records_of_nothing, MOONBLEAT_REFUSED_RECORD},
    {"trace nothing", trace_nothing, MOONBLEAT_REFUSED_ORDER},
    {"trace to nothing", trace_to_nothing, MOONBLEAT_REFUSED_ROOM},
    {"trace no access to nothing", trace_no_access_to_nothing, 0},
    {"replay for nothing", replay_for_nothing, MOONBLEAT_REFUSED_ORDER},
    {"replay nothing", replay_nothing, 0},
    {"replay nothing for no access", replay_nothing_for_no_access, 0},
    {"divisions of nothing", divisions_of_nothing, MOONBLEAT_REFUSED_ORDER},
    {"outcome of nothing", outcome_of_nothing, MOONBLEAT_REFUSED_ORDER},
};

enum { CASES = sizeof cases / sizeof cases[0], GARBAGE = 0xA5 };

/* Whether a call with NULL gives what it gives with another empty slice, from garbage. */
static bool holds(size_t i)
{
    static struct result with_null, with_another;
    uint8_t byte = 0;
    int32_t number = 0;
    memset(&with_null, GARBAGE, sizeof with_null);
    memset(&with_another, GARBAGE, sizeof with_another);
    cases[i].call(NULL, NULL, &with_null);
    cases[i].call(&byte, &number, &with_another);
    return memcmp(&with_null, &with_another, sizeof with_null) == 0 && with_null.returned == cases[i].returned;
}

static const char *name_of(size_t i)
{
    return cases[i].name;
}

int main(void)
{
    return try_cases("slices of length 0", CASES, holds, name_of);
}
