/* Outcomes: what becomes of an element of a load or a store, and which way it was clamped. */
#ifndef OUTCOMES_H
#define OUTCOMES_H

#include <stdbool.h>
#include <stdint.h>

#include "json.h"
#include "moonbleat.h"
#include "places.h"
#include "text.h"

/* As the library fills it. */
struct told {
    uint32_t numbers[MOONBLEAT_OUTCOME];
};

/* What the tool's own working of an element comes to. */
struct told told_by(const struct place *place);

bool same_outcome(const struct told *one, const struct told *other);

/* The name of a side: "inside", "below" or "above". */
const char *side_name(uint32_t side);

/* Adds the bits that a filled element of a kind gets: "9", "255 (-1 as s8)". */
void add_fill(struct text *text, uint32_t kind, uint32_t bits);

/* Adds "byte 2; dimension 0 is the first outside, below". */
void add_outcome(struct text *text, uint32_t kind, const struct told *told);

/* The same as an object. */
void json_outcome(struct json *json, const char *key, uint32_t element, const struct told *told);

#endif
