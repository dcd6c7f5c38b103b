/* What has changed since another night: which differences are new, which still there, and which mended, by card and
 * cause. */
#ifndef SINCE_H
#define SINCE_H

#include <stdbool.h>
#include <stddef.h>

#include "merge.h"
#include "night.h"

/* What became of a difference between the two nights. One that was there and is not compared now is open. */
enum change { CHANGE_NEW, CHANGE_STILL, CHANGE_MENDED, CHANGE_OPEN, CHANGES };

/* A line of what has changed: some sheets of a card, by a cause. */
struct change_line {
    const char *card;
    enum change change;
    const struct cause *cause;
    size_t sheets;
};

struct since {
    struct merge report; /* the last night's */
    struct night last;
    unsigned char *now;  /* what became of each difference of this night, */
    unsigned char *then; /* .. and of the last */
    struct change_line *lines; /* new and still differing by this night's causes, the others by the last night's */
    size_t count;
    size_t room;
};

/* Reads the last night's report; says on standard error what is wrong. To be closed. */
bool open_since(const char *path, struct since *since);
void close_since(struct since *since);

/* Compares a night, whose causes are known, with the last. */
bool compare_nights(struct since *since, struct night *night);

/* "new", "still", "mended" or "open". */
const char *change_name(unsigned change);

/* What became of a pair of this night: the name of a change, or "" where there is none. */
const char *change_of(const struct since *since, const struct night *night, const char *sheet, size_t card);

/* Adds "new on 3 sheets: elements that Repeat clamps". */
void add_change(struct text *text, const struct change_line *line);

#endif
