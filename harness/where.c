#include "where.h"

#include <inttypes.h>
#include <stdio.h>

#include "kinds.h"
#include "refusals.h"
#include "show.h"

bool find_where(const struct refused *asked, const struct translation *translation, uint32_t number,
                struct where *where)
{
    where->asked = asked;
    where->translation = translation;
    where->number = number;
    return find_step(asked, number, &where->step) && is_access(&where->step) && find_types(asked, &where->step) &&
           find_access(asked, &where->step, &where->access);
}

bool has_masks(const struct where *where)
{
    return where->translation->answer[MOONBLEAT_NUMBER] == 0;
}

struct text no_mask(const struct where *where)
{
    struct refused translated = *where->asked;
    struct text text = {.len = 0};
    translated.answer = where->translation->answer;
    add_text(&text, "none, %s", refusal_line(&translated).at);
    return text;
}

unsigned element_count(const struct where *where)
{
    return where->access.rows * where->access.columns;
}

static struct text fault_of(const struct where *where, unsigned element, const struct told *told,
                            const struct told *worked)
{
    struct text by_library = {.len = 0}, by_tool = {.len = 0}, fault = {.len = 0};
    add_outcome(&by_library, where->access.kind, told);
    add_outcome(&by_tool, where->access.kind, worked);
    add_text(&fault,
             "step %" PRIu32 ", element %u: a fault in this tool: it works out '%s', and the library says '%s'",
             where->number, element, by_tool.at, by_library.at);
    return fault;
}

bool find_outcome(const struct where *where, unsigned element, struct told *told, struct place *place,
                  struct text *fault)
{
    uint32_t answer[MOONBLEAT_ANSWER];
    uint32_t number = moonbleat_outcome(where->asked->sheet, where->asked->sheet_len, where->asked->memory_len,
                                        where->number, element, told->numbers, answer);
    *place = place_of(&where->access, element);
    struct told worked = told_by(place);
    if (number == 0 && same_outcome(told, &worked)) {
        return true;
    }
    *fault = fault_of(where, element, told, &worked);
    return false;
}

void print_step(const struct where *where)
{
    const struct access *access = &where->access;
    show_field(stdout, &where->step.field, where->number);
    printf("matrix %u by %u of %s, clamp mode %s\n", access->rows, access->columns, kind_name(access->kind),
           clamp_mode_name(access->layout.mode));
}
