/* The grid of a night's page: a row for each sheet, a column for each card. Many rows in a row that are alike are
 * one. */
#ifndef GRID_H
#define GRID_H

#include <stddef.h>
#include <stdint.h>
#include <stdio.h>

#include "names.h"
#include "report.h"

/* From so many rows on. */
enum { RUN_MIN = 8 };

struct grid {
    FILE *file;
    uint32_t *verdicts; /* of the rows since the last that had others, for each card */
    size_t run;         /* how many rows these are */
    char names[RUN_MIN][NAME_ROOM]; /* the first of their sheets .. */
    char last[NAME_ROOM];           /* .. and the last */
    size_t differences[RUN_MIN];    /* how many cards differ on the sheets before each */
    size_t differing;               /* .. and before the next */
};

/* The sign of a verdict; what a screen reader says is the verdict's name. */
const char *verdict_sign(unsigned verdict);
void put_sign(FILE *file, unsigned verdict);

/* Takes the next sheet; the differences are numbered from 0 on, sheet by sheet and card by card. */
void put_grid_sheet(struct grid *grid, const struct night *night, const char *name, const struct finding *findings);

/* Writes what is left behind the last sheet. */
void end_grid(struct grid *grid, const struct night *night);

#endif
