/* A report in JSON, read again sheet by sheet. */
#ifndef REPORT_IN_H
#define REPORT_IN_H

#include <stdbool.h>

#include "identity.h"
#include "json_in.h"
#include "names.h"
#include "report.h"

struct report_in {
    const char *path;
    struct json_in json;
    bool is_told; /* what is wrong with it has been said */
    struct identity identity;
    struct shard shard;
    struct list cards;
    struct spectrum spectrum; /* the counts that the head has; the pairs of one sheet */
    uint64_t *left;           /* for each sort and card: what differs by the head, less the sheets so far */
    size_t sheets;            /* so far, as the tallies, which the totals at the end must fit */
    struct tally *tallies;
    struct tally total;
    bool at_end;        /* no sheet is left; else this is the next one: */
    char name[NAME_ROOM];
    struct finding *findings;
};

/* Opens a report and reads up to its first sheet; says on standard error what is wrong. */
bool open_report(const char *path, struct report_in *report);

/* Goes on to the next sheet, or to the end and the totals. */
bool next_sheet(struct report_in *report);

void close_report(struct report_in *report);

#endif
