/* How far a night is, on standard error where that is a terminal. */
#ifndef PROGRESS_H
#define PROGRESS_H

#include <stdbool.h>
#include <stddef.h>
#include <time.h>

struct progress {
    bool wanted;
    bool shown;
    size_t total;
    struct timespec start;
    struct timespec last; /* when it was shown last; long ago at first */
};

void start_progress(struct progress *progress, size_t total);

/* Removes the line, so that others can be printed. */
void hide_progress(struct progress *progress);

/* Shows how many sheets are done, how many a second and how long the rest will take, if the last time
 * is long enough ago. */
void show_progress(struct progress *progress, size_t done);

#endif
