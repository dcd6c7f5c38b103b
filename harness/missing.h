/* Which sheets of a night's folder a card has not been run on yet. */
#ifndef MISSING_H
#define MISSING_H

#include <stdbool.h>

#include "folder.h"
#include "list.h"

/* Prints a sheet and a card, with a tab between them, for each pair that has neither a memory afterwards nor a
 * refusal; each ends with a line's end, or with a NUL byte. A name that a line cannot hold is told on standard error,
 * unless they end with NUL; false if there is one. */
bool print_missing(const struct folder *folder, const struct list *cards, bool ends_with_nul);

#endif
