/* Refusals in words. */
#ifndef REFUSALS_H
#define REFUSALS_H

#include "diagnose.h"

/* A refusal as "refusal 5 at byte 4: .." with its cause, or a general sentence where none is
 * found. */
struct text refusal_line(const struct refused *refused);

/* Prints the above on standard error. */
void print_refusal(const struct refused *refused);

/* The two parts of the line: where, as "byte 4" or "byte 12 of the trace" (empty for nowhere), and
 * why. */
struct text refusal_place(const struct refused *refused);
struct text refusal_sentence(const struct refused *refused);

#endif
