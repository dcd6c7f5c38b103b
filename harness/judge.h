/* What is wrong with a field of a sheet in its place: refusals 1 to 6 with the number that is at
 * fault. The library decides whether a sheet is refused; this only says why. */
#ifndef JUDGE_H
#define JUDGE_H

#include <stdint.h>

#include "fields.h"
#include "text.h"

/* What came before a field. */
struct reading {
    unsigned counts[RANKS];
    enum rank rank; /* of the field before */
};

struct range {
    int64_t low;
    int64_t high;
    namer *name_of; /* if not NULL, only numbers that have a name are meant */
};

bool is_within(int64_t number, struct range range);

/* The range of a number behind what was read; `kind` is that of the field, for its value. */
struct range range_of(const struct number_form *form, const struct reading *reading, uint32_t kind);

/* Adds "size 0 is not within 1 to 4096". */
void add_out_of_range(struct text *text, const char *name, int64_t number, struct range range);

/* Adds what a field is called: "layout 0", "step 3 (load)". */
void add_field_name(struct text *text, const struct reading *reading, const struct field_form *form);

/* Whether an edition has a field; where the sheet has none, 0, every one may be meant. */
bool is_known_field(unsigned edition, const struct field_form *form);

/* Adds "tag 0x26 (vector) comes with edition 2, and the sheet has edition 1". */
void add_later_edition(struct text *text, const struct field_form *form, unsigned edition);

/* The refusal of a field, 0 if it is right, and a sentence that names it and what is wrong. */
uint32_t judge_field(const struct reading *reading, const struct field *field, struct text *sentence);

/* What is wrong where fewer than three bytes are left, and where no edition came. */
#define HEAD_CUT_SENTENCE "a field's head has 3 bytes, the %s ends after %zu"
#define NO_EDITION_SENTENCE "the sheet has no edition"

/* Takes a field as read. */
void note_field(struct reading *reading, const struct field *field);

#endif
