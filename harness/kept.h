/* The findings of a night, kept until all sheets are judged: only then is it known what they have in common. */
#ifndef KEPT_H
#define KEPT_H

#include <stdbool.h>
#include <stddef.h>
#include <stdio.h>

#include "finding.h"
#include "names.h"

/* A card that differs on a sheet. */
struct kept_difference {
    char *sheet;
    size_t card;
    uint32_t sorts_at; /* its sorts in the spectrum */
    uint32_t sorts;
    struct traits lead; /* the sort of its first element; all zeros if no step has to do with it */
    long place;         /* of the finding in the spool */
};

struct kept {
    FILE *spool;
    size_t cards;
    struct kept_difference *differences; /* by sheet, then by card */
    size_t count;
    size_t room;
};

/* Say on standard error what goes wrong. */
bool begin_kept(struct kept *kept, size_t cards);
void end_kept(struct kept *kept);

/* Keeps a sheet's findings, one for each card. */
bool keep_sheet(struct kept *kept, const char *name, const struct finding *findings);

/* Gives the sheets again, from the first on. */
bool rewind_kept(struct kept *kept);
bool next_kept(struct kept *kept, char name[NAME_ROOM], struct finding *findings);

/* Gives the finding of a difference. */
bool get_kept(struct kept *kept, const struct kept_difference *difference, struct finding *finding);

#endif
