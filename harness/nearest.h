/* The word that may have been meant by one that is not known. */
#ifndef NEAREST_H
#define NEAREST_H

#include <stddef.h>

#include "text.h"

/* A search for it. */
struct nearest {
    const char *word;
    size_t len;
    const char *found; /* the nearest of those that were considered; NULL: none is near */
    size_t distance;
};

/* Begins a search for what a word may mean. */
struct nearest nearest_to(const char *word, size_t len);

/* Considers a word that is known. One is near if a letter in three, at most, is wrong, lacking, too much or
 * exchanged with its neighbour; capitals do not count. The first of equally near ones is found. */
void consider(struct nearest *nearest, const char *known);

/* Adds "; did you mean WORD?", between quotes if there are some, or nothing. */
void add_nearest(struct text *text, const struct nearest *nearest, const char *quote);

#endif
