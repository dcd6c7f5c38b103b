#include "outcomes.h"

#include <inttypes.h>
#include <string.h>

#include "kinds.h"
#include "traces.h"

struct told told_by(const struct place *place)
{
    struct told told = {{0}};
    told.numbers[MOONBLEAT_OUTCOME_SORT] = place->outcome;
    told.numbers[MOONBLEAT_OUTCOME_VALUE] = place->outcome == FILLED ? place->bits : (uint32_t)place->byte;
    told.numbers[MOONBLEAT_OUTCOME_DIMENSION] = place->dimension;
    told.numbers[MOONBLEAT_OUTCOME_SIDE] = place->side;
    return told;
}

bool same_outcome(const struct told *one, const struct told *other)
{
    return memcmp(one->numbers, other->numbers, sizeof one->numbers) == 0;
}

const char *side_name(uint32_t side)
{
    static const char *const names[] = {
        [MOONBLEAT_SIDE_INSIDE] = "inside",
        [MOONBLEAT_SIDE_BELOW] = "below",
        [MOONBLEAT_SIDE_ABOVE] = "above",
    };
    return side < sizeof names / sizeof names[0] ? names[side] : "on no known side";
}

void add_fill(struct text *text, uint32_t kind, uint32_t bits)
{
    int64_t value = element_value(kind, bits);
    add_text(text, "%" PRIu32, bits);
    if (value != bits) {
        add_text(text, " (%" PRId64 " as %s)", value, kind_name(kind));
    }
}

static void add_sort(struct text *text, uint32_t kind, const struct told *told)
{
    uint32_t sort = told->numbers[MOONBLEAT_OUTCOME_SORT], value = told->numbers[MOONBLEAT_OUTCOME_VALUE];
    add_sort_words(text, sort, value);
    if (sort == MOONBLEAT_SORT_FILLED) {
        add_text(text, " with ");
        add_fill(text, kind, value);
    }
}

void add_outcome(struct text *text, uint32_t kind, const struct told *told)
{
    uint32_t side = told->numbers[MOONBLEAT_OUTCOME_SIDE];
    add_sort(text, kind, told);
    if (side != MOONBLEAT_SIDE_INSIDE) {
        add_text(text, "; dimension %" PRIu32 " is the first outside, %s", told->numbers[MOONBLEAT_OUTCOME_DIMENSION],
                 side_name(side));
    } else if (told->numbers[MOONBLEAT_OUTCOME_SORT] != MOONBLEAT_SORT_SKIPPED) {
        add_text(text, "; inside in every dimension");
    }
}

/* A number, or null where it says nothing. */
static void json_where(struct json *json, const char *key, bool says, uint32_t number)
{
    if (says) {
        json_number(json, key, number);
    } else {
        json_null(json, key);
    }
}

void json_outcome(struct json *json, const char *key, uint32_t element, const struct told *told)
{
    uint32_t sort = told->numbers[MOONBLEAT_OUTCOME_SORT], value = told->numbers[MOONBLEAT_OUTCOME_VALUE];
    uint32_t side = told->numbers[MOONBLEAT_OUTCOME_SIDE];
    json_open(json, key, '{');
    json_number(json, "element", element);
    json_text(json, "sort", sort_name(sort));
    json_where(json, "byte", sort == MOONBLEAT_SORT_BYTE, value);
    json_where(json, "bits", sort == MOONBLEAT_SORT_FILLED, value);
    json_where(json, "dimension", side != MOONBLEAT_SIDE_INSIDE, told->numbers[MOONBLEAT_OUTCOME_DIMENSION]);
    json_text(json, "side", side_name(side));
    json_close(json, '}');
}
