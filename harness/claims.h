/* What a card says of itself: its trace, and its refusal of a sheet, beside the reference's. */
#ifndef CLAIMS_H
#define CLAIMS_H

#include <stdbool.h>

#include "compare.h"
#include "files.h"
#include "finding.h"

/* Replays a card's trace; false if it is refused, with the refusal in words. */
bool compare_trace(const struct reference *reference, struct bytes trace, struct trace_difference *difference,
                   struct text *refusal);

/* Takes a refusal's file apart: its number and its place, of one or two numbers; false if it is none. */
bool parse_refusal(const char *text, size_t len, uint32_t refusal[3]);

/* Compares what a card answers with what the reference does: a refusal, or all zeros if it is accepted. */
void compare_refusals(const uint32_t wants[3], const uint32_t has[3], struct refusal_difference *difference);

#endif
