/* Holds the header's word on outcomes: what an accepted question gets, and that a refused one gets zeros
 * beside its number and place. */
#include <string.h>

#include "cases.h"
#include "moonbleat.h"
#include "padded_sheet.h"

enum { CUT_SHORT = sizeof sheet - 1, STORE_AT = 45 };

static const struct {
    const char *name;
    size_t sheet_len;
    size_t memory_len;
    uint32_t step;
    uint32_t element;
    uint32_t outcome[MOONBLEAT_OUTCOME];
    uint32_t answer[MOONBLEAT_ANSWER];
} cases[] = {
    {"filled, below", sizeof sheet, MEMORY, 1, 1, {MOONBLEAT_SORT_FILLED, 9, 0, MOONBLEAT_SIDE_BELOW}, {0}},
    {"filled, above", sizeof sheet, MEMORY, 1, 6, {MOONBLEAT_SORT_FILLED, 9, 0, MOONBLEAT_SIDE_ABOVE}, {0}},
    {"a load's byte", sizeof sheet, MEMORY, 1, 5, {MOONBLEAT_SORT_BYTE, 3, 0, MOONBLEAT_SIDE_INSIDE}, {0}},
    {"discarded, below", sizeof sheet, MEMORY, 2, 0, {MOONBLEAT_SORT_DISCARDED, 0, 0, MOONBLEAT_SIDE_BELOW}, {0}},
    {"discarded, above", sizeof sheet, MEMORY, 2, 7, {MOONBLEAT_SORT_DISCARDED, 0, 0, MOONBLEAT_SIDE_ABOVE}, {0}},
    {"a store's byte", sizeof sheet, MEMORY, 2, 5, {MOONBLEAT_SORT_BYTE, 19, 0, MOONBLEAT_SIDE_INSIDE}, {0}},
    {"no load or store", sizeof sheet, MEMORY, 0, 3, {0}, {MOONBLEAT_REFUSED_NUMBER, 0, 3, 0}},
    {"no step", sizeof sheet, MEMORY, 3, 0, {0}, {MOONBLEAT_REFUSED_NUMBER, 3, 0, 0}},
    {"the last number of a step", sizeof sheet, MEMORY, UINT32_MAX, 1, {0},
     {MOONBLEAT_REFUSED_NUMBER, UINT32_MAX, 1, 0}},
    {"past a load's matrix", sizeof sheet, MEMORY, 1, 8, {0}, {MOONBLEAT_REFUSED_NUMBER, 1, 8, 0}},
    {"past a store's matrix", sizeof sheet, MEMORY, 2, UINT32_MAX, {0}, {MOONBLEAT_REFUSED_NUMBER, 2, UINT32_MAX, 0}},
    {"too long a memory", sizeof sheet, MOONBLEAT_MEMORY_MAX + 1, 1, 8, {0}, {MOONBLEAT_REFUSED_MEMORY, 0, 0, 0}},
    {"a sheet cut short", CUT_SHORT, MEMORY, 1, 2, {0}, {MOONBLEAT_REFUSED_CUT_SHORT, STORE_AT, 0, 0}},
    {"too short a memory", sizeof sheet, MEMORY - 1, 1, 2, {0}, {MOONBLEAT_REFUSED_ADDRESS, 2, 5, 0}},
};

enum { CASES = sizeof cases / sizeof cases[0], GARBAGE = 0xA5 };

static bool holds(size_t i)
{
    uint32_t outcome[MOONBLEAT_OUTCOME], answer[MOONBLEAT_ANSWER];
    memset(outcome, GARBAGE, sizeof outcome);
    memset(answer, GARBAGE, sizeof answer);
    uint32_t returned = moonbleat_outcome(sheet, cases[i].sheet_len, cases[i].memory_len, cases[i].step,
                                          cases[i].element, outcome, answer);
    return returned == cases[i].answer[MOONBLEAT_NUMBER] && memcmp(outcome, cases[i].outcome, sizeof outcome) == 0 &&
           memcmp(answer, cases[i].answer, sizeof answer) == 0;
}

static const char *name_of(size_t i)
{
    return cases[i].name;
}

int main(void)
{
    return try_cases("outcomes", CASES, holds, name_of);
}
