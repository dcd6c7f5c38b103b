/* Holds the tool to its word that it notices where its own working of an element differs from the
 * library's outcome: a number that the working goes by is changed, and the fault is told. */
#include <string.h>

#include "cases.h"
#include "padded_sheet.h"
#include "where.h"

enum { LOAD = 1, STORE = 2 };

static const struct refused asked = {.sheet = sheet, .sheet_len = sizeof sheet, .memory_len = MEMORY};
static const struct translation no_translation; /* faults are told without masks */

static void change_base(struct access *access)
{
    access->base = 16;
}

static void change_value(struct access *access)
{
    access->layout.value = 8;
}

static void change_size(struct access *access)
{
    access->layout.dimensions[0].size = 8;
}

static void change_offset(struct access *access)
{
    access->layout.dimensions[0].offset = -9;
}

static void change_step(struct access *access)
{
    access->is_store = false;
}

static const struct {
    uint32_t step;
    void (*change)(struct access *access);
    unsigned element;
    const char *fault;
} cases[] = {
    {LOAD, change_base, 2,
     "step 1, element 2: a fault in this tool: it works out 'byte 16; inside in every dimension', and the library "
     "says 'byte 0; inside in every dimension'"},
    {LOAD, change_value, 0,
     "step 1, element 0: a fault in this tool: it works out 'filled with 8; dimension 0 is the first outside, "
     "below', and the library says 'filled with 9; dimension 0 is the first outside, below'"},
    {LOAD, change_size, 7,
     "step 1, element 7: a fault in this tool: it works out 'byte 5; inside in every dimension', and the library "
     "says 'filled with 9; dimension 0 is the first outside, above'"},
    {LOAD, change_offset, 7,
     "step 1, element 7: a fault in this tool: it works out 'filled with 9; dimension 0 is the first outside, "
     "below', and the library says 'filled with 9; dimension 0 is the first outside, above'"},
    {STORE, change_step, 1,
     "step 2, element 1: a fault in this tool: it works out 'filled with 9; dimension 0 is the first outside, "
     "below', and the library says 'discarded; dimension 0 is the first outside, below'"},
};

enum { CASES = sizeof cases / sizeof cases[0] };

/* Whether the fault is told once the number is changed, and none before. */
static bool holds(size_t i)
{
    struct where where;
    struct told told;
    struct place place;
    struct text fault = {.len = 0};
    if (!find_where(&asked, &no_translation, cases[i].step, &where) ||
        !find_outcome(&where, cases[i].element, &told, &place, &fault)) {
        return false;
    }
    cases[i].change(&where.access);
    return !find_outcome(&where, cases[i].element, &told, &place, &fault) && strcmp(fault.at, cases[i].fault) == 0;
}

static const char *name_of(size_t i)
{
    return cases[i].fault;
}

int main(void)
{
    return try_cases("faults of the tool's own", CASES, holds, name_of);
}
