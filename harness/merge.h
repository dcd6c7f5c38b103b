/* The reports of a night's parts as one, sheet by sheet in order. */
#ifndef MERGE_H
#define MERGE_H

#include <stdbool.h>
#include <stddef.h>

#include "report_in.h"

struct merge {
    struct report_in *reports;
    size_t count;
};

/* Opens the reports, which must be all parts of one night; says on standard error what is wrong. */
bool open_merge(const char *const *paths, size_t count, struct merge *merge);

/* Reads all sheets of all parts into a night of some of their cards, to the end of each report. */
bool take_merge(const struct merge *merge, struct night *night);

void close_merge(struct merge *merge);

#endif
