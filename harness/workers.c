#define _POSIX_C_SOURCE 200809L

#include "workers.h"

#include <stdlib.h>
#include <sys/wait.h>
#include <unistd.h>

#include "files.h"

/* What a pipe takes of a sheet: the census, the findings, and the counts of the census. */
static bool write_judged(const struct judged *judged, FILE *stream)
{
    const struct census *census = &judged->census;
    size_t counts = judged->cards * census->count;
    return fwrite(&census->count, sizeof census->count, 1, stream) == 1 &&
           fwrite(census->at, sizeof census->at[0], census->count, stream) == census->count &&
           fwrite(judged->findings, sizeof judged->findings[0], judged->cards, stream) == judged->cards &&
           fwrite(judged->counts, sizeof judged->counts[0], counts, stream) == counts;
}

static bool read_judged(struct judged *judged, FILE *stream)
{
    struct census *census = &judged->census;
    if (fread(&census->count, sizeof census->count, 1, stream) != 1 || !make_counts(judged)) {
        return false;
    }
    size_t counts = judged->cards * census->count;
    return fread(census->at, sizeof census->at[0], census->count, stream) == census->count &&
           fread(judged->findings, sizeof judged->findings[0], judged->cards, stream) == judged->cards &&
           fread(judged->counts, sizeof judged->counts[0], counts, stream) == counts;
}

/* Judges a worker's sheets and writes what it finds to a pipe. Does not return. */
static void work(const struct workers *workers, size_t number, int pipe_end)
{
    const struct folder *folder = workers->folder;
    FILE *stream = fdopen(pipe_end, "wb");
    struct judged *judged = new_judged(workers->cards->count);
    bool done = stream != NULL && judged != NULL;
    for (size_t i = number; done && i < folder->sheets.count; i += workers->count) {
        done = judge_sheet(folder, workers->cards, folder->sheets.at[i], judged) && write_judged(judged, stream);
    }
    _exit(done && fflush(stream) == 0 ? EXIT_SUCCESS : EXIT_FAILURE);
}

static bool start_worker(struct workers *workers, size_t number)
{
    int ends[2];
    if (pipe(ends) != 0) {
        return false;
    }
    FILE *judged = fdopen(ends[0], "rb");
    pid_t process = judged == NULL ? -1 : fork();
    if (process == 0) {
        /* Were the pipes that this process reads open elsewhere, a worker would not see it go. */
        for (size_t i = 0; i < number; i++) {
            close(fileno(workers->at[i].judged));
        }
        close(ends[0]);
        work(workers, number, ends[1]);
    }
    close(ends[1]);
    if (process < 0) {
        (void)(judged == NULL ? close(ends[0]) : fclose(judged));
        return false;
    }
    workers->at[number] = (struct worker){process, judged};
    return true;
}

bool start_workers(const struct folder *folder, const struct list *cards, size_t count, struct workers *workers)
{
    *workers = (struct workers){.folder = folder, .cards = cards, .count = count};
    if (count == 1) {
        return true;
    }
    /* What is not written yet must not be written by each of the processes. */
    fflush(NULL);
    workers->at = calloc(count, sizeof workers->at[0]);
    for (size_t i = 0; i < count; i++) {
        if (workers->at == NULL || !start_worker(workers, i)) {
            complain("a process cannot be started");
            workers->count = i;
            stop_workers(workers);
            return false;
        }
    }
    return true;
}

bool get_judged(const struct workers *workers, size_t i, struct judged *judged)
{
    const struct folder *folder = workers->folder;
    if (workers->at == NULL) {
        return judge_sheet(folder, workers->cards, folder->sheets.at[i], judged);
    }
    if (!read_judged(judged, workers->at[i % workers->count].judged)) {
        fputs("moonbleat: a process ended before its sheets did\n", stderr);
        return false;
    }
    return true;
}

void stop_workers(struct workers *workers)
{
    for (size_t i = 0; workers->at != NULL && i < workers->count; i++) {
        fclose(workers->at[i].judged);
    }
    for (size_t i = 0; workers->at != NULL && i < workers->count; i++) {
        waitpid(workers->at[i].process, NULL, 0);
    }
    free(workers->at);
    workers->at = NULL;
}
