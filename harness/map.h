/* The map of a matrix as a drawing in a page: which of its elements differ. */
#ifndef MAP_H
#define MAP_H

#include <stdbool.h>
#include <stdio.h>

#include "finding.h"

/* By rows and columns: whether the lines and numbers around a map of these sides are in the page. All zeros at
 * its start. */
struct frames {
    bool are_there[MOONBLEAT_SIDE_MAX + 1][MOONBLEAT_SIDE_MAX + 1];
};

/* Draws a map, with how many of its elements differ below it. */
void put_map(FILE *file, const struct map *map, struct frames *frames);

#endif
