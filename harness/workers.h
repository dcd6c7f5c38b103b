/* Processes that judge a folder's sheets side by side. */
#ifndef WORKERS_H
#define WORKERS_H

#include <stdbool.h>
#include <stddef.h>
#include <stdio.h>
#include <sys/types.h>

#include "folder.h"

/* Sheet i is worker i mod `count`'s. A single worker is this process itself. */
struct workers {
    const struct folder *folder;
    const struct list *cards; /* that they judge */
    size_t count;
    struct worker {
        pid_t process;
        FILE *judged; /* a pipe that it is read from */
    } *at;
};

/* Starts workers; says on standard error what went wrong. */
bool start_workers(const struct folder *folder, const struct list *cards, size_t count, struct workers *workers);

/* Gets what is found on sheet i; to be asked for in order. */
bool get_judged(const struct workers *workers, size_t i, struct judged *judged);

/* Ends the workers, also before they are done. */
void stop_workers(struct workers *workers);

#endif
