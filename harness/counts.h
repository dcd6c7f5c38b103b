/* Commands that answer with one count of a sheet, for a memory of some length. */
#ifndef COUNTS_H
#define COUNTS_H

#include <stddef.h>
#include <stdint.h>

#include "command.h"

/* A function of the library that counts. */
typedef uint32_t counter(const uint8_t *sheet, size_t sheet_len, size_t memory_len, uint32_t answer[4]);

/* Counts as the request asks and prints the count by its name, or the refusal; gives the exit
 * status. */
int answer_count(const struct command *command, const struct request *request, counter *count, const char *name);

#endif
