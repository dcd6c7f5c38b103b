/* A night: its cards, what was found on all sheets, and what the differences of each card have in common. */
#ifndef NIGHT_H
#define NIGHT_H

#include <stdbool.h>
#include <stddef.h>

#include "causes.h"
#include "finding.h"
#include "folder.h"
#include "identity.h"
#include "judged.h"
#include "kept.h"
#include "list.h"
#include "spectrum.h"

struct since;

/* The tallies, the spectrum and what is kept grow as sheets are taken. */
struct night {
    struct identity identity;
    const struct list *cards;
    struct shard shard;
    size_t sheets;
    struct tally *tallies; /* for each card */
    struct tally total;
    struct spectrum spectrum;
    struct kept kept;
    struct causes *causes; /* for each card, once all sheets are taken */
    const struct since *since; /* what has changed; NULL: it is not asked for */
};

/* A night of some cards; says on standard error what goes wrong. To be ended. */
bool begin_night(struct night *night, const struct identity *identity, const struct list *cards,
                 const struct shard *shard);
void end_night(struct night *night);

/* Takes what was judged on a sheet, or findings whose sorts are in the spectrum already. */
bool take_judged(struct night *night, const char *name, struct judged *judged);
bool take_findings(struct night *night, const char *name, const struct finding *findings);

/* Finds the causes, behind the last sheet. */
bool find_night_causes(struct night *night);

/* Whether a finding of a card has elements of one of its causes. */
bool has_cause(const struct night *night, const struct finding *finding, size_t card, size_t cause);

/* Finds the first difference, from `*number` on, that has elements of a card's cause; false if there is none. */
bool find_of_cause(const struct night *night, size_t card, size_t cause, size_t *number);

/* The difference that shows a cause best: the first whose first element is one of its elements, or else the first
 * that has any. */
const struct kept_difference *find_example(const struct night *night, size_t card, size_t cause);

/* Adds a cause of a card with its sheets: "40 sheets, 960 of 960 elements that MirrorRepeat clamps differ, ..". */
void add_headline(struct text *text, const struct night *night, size_t card, size_t cause);

/* A cause as a reader gets it: its headline, and a worked example. */
struct shown_cause {
    struct text headline;
    const char *sheet;
    struct finding finding;
};

bool show_cause(struct night *night, size_t card, size_t cause, struct shown_cause *shown);

#endif
