#define _POSIX_C_SOURCE 200809L

#include "progress.h"

#include <stdio.h>
#include <unistd.h>

/* Seconds between two showings. */
static const double interval = 0.2;

static double seconds_since(const struct timespec *start)
{
    struct timespec now;
    clock_gettime(CLOCK_MONOTONIC, &now);
    return (double)(now.tv_sec - start->tv_sec) + 1e-9 * (double)(now.tv_nsec - start->tv_nsec);
}

void start_progress(struct progress *progress, size_t total)
{
    *progress = (struct progress){.wanted = isatty(STDERR_FILENO) != 0, .total = total};
    clock_gettime(CLOCK_MONOTONIC, &progress->start);
}

void hide_progress(struct progress *progress)
{
    if (progress->shown) {
        /* Back to the line's start, and all of it erased. */
        fputs("\r\033[K", stderr);
        progress->shown = false;
    }
}

void show_progress(struct progress *progress, size_t done)
{
    if (!progress->wanted || seconds_since(&progress->last) < interval) {
        return;
    }
    double rate = (double)done / seconds_since(&progress->start);
    double left = (double)(progress->total - done) / rate;
    hide_progress(progress);
    fprintf(stderr, "%zu of %zu sheets, %.0f a second, %.0f s left", done, progress->total, rate, left);
    clock_gettime(CLOCK_MONOTONIC, &progress->last);
    progress->shown = true;
}
