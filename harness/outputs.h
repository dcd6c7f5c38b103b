/* Files that are written whole or not at all; devices and pipes, which are written to as they are. */
#ifndef OUTPUTS_H
#define OUTPUTS_H

#include <stdbool.h>
#include <stddef.h>
#include <stdint.h>
#include <stdio.h>

struct output {
    const char *name; /* NULL: nothing is to be written */
    const uint8_t *bytes;
    size_t len;
    FILE *spool; /* if not NULL, what was written to it is written in place of the bytes */
};

/* How many outputs a command has at most. */
enum { OUTPUTS_MAX = 2 };

/* Writes all of the outputs, which are files of their own: each under another name beside its place
 * first, so that a file that exists is replaced by all of the new one or not at all, and none if one of
 * them cannot be made. A signal that ends the tool leaves no such file. Devices and pipes are written to
 * when the others are ready. Says on standard error what went wrong. */
bool write_outputs(const struct output *outputs, size_t count);

/* Whether a name stands for standard output: `-` or /dev/stdout. */
bool is_standard_output(const char *name);

#endif
