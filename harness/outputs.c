#define _XOPEN_SOURCE 700

#include "outputs.h"

#include <errno.h>
#include <signal.h>
#include <stdio.h>
#include <stdlib.h>
#include <string.h>
#include <sys/stat.h>
#include <unistd.h>

#include "files.h"
#include "spool.h"

/* A file under its other name, and the name that it will get. The handler of signals sees them too. */
static struct pending {
    char *target;
    char *volatile temporary; /* NULL: there is no such file */
} pending[OUTPUTS_MAX];

bool is_standard_output(const char *name)
{
    return name != NULL && (strcmp(name, STANDARD_STREAM) == 0 || strcmp(name, "/dev/stdout") == 0);
}

/* -- Signals ---------------------------------------------------------------------------------- */

/* Those that end the tool while it writes; writing itself can raise the last two. */
static const int ending_signals[] = {SIGHUP, SIGINT, SIGTERM, SIGPIPE, SIGXFSZ};
enum { ENDING_SIGNALS = sizeof ending_signals / sizeof ending_signals[0] };

static sigset_t ending_set(void)
{
    sigset_t set;
    sigemptyset(&set);
    for (size_t i = 0; i < ENDING_SIGNALS; i++) {
        sigaddset(&set, ending_signals[i]);
    }
    return set;
}

/* Takes the temporary files away; then the signal, whose handler is gone, ends the tool. */
static void end_by_signal(int number)
{
    for (size_t i = 0; i < OUTPUTS_MAX; i++) {
        if (pending[i].temporary != NULL) {
            unlink(pending[i].temporary);
        }
    }
    raise(number);
}

/* A signal that is ignored, as HUP below nohup, stays so. */
static void catch_signals(void)
{
    const struct sigaction action = {
        .sa_handler = end_by_signal, .sa_mask = ending_set(), .sa_flags = (int)SA_RESETHAND};
    for (size_t i = 0; i < ENDING_SIGNALS; i++) {
        struct sigaction before;
        if (sigaction(ending_signals[i], NULL, &before) == 0 && before.sa_handler != SIG_IGN) {
            sigaction(ending_signals[i], &action, NULL);
        }
    }
}

/* -- Files that are replaced ------------------------------------------------------------------- */

static bool put_output(const struct output *output, FILE *file)
{
    if (output->spool != NULL) {
        return copy_spool(output->spool, file);
    }
    return fwrite(output->bytes, 1, output->len, file) == output->len;
}

/* The mode that a new file would get: mkstemp makes files for their owner alone. */
static mode_t usual_mode(void)
{
    mode_t mask = umask(0);
    umask(mask);
    return (mode_t)(0666 & ~mask);
}

/* Where a name leads, through symbolic links, and the mode that the file there has or will have.
 * NULL if it is no regular file, which must not be replaced by one. */
static char *resolve(const char *name, mode_t *mode)
{
    struct stat status;
    if (lstat(name, &status) != 0 && errno == ENOENT) {
        *mode = usual_mode();
        return strdup(name);
    }
    if (stat(name, &status) != 0) {
        return NULL;
    }
    if (!S_ISREG(status.st_mode)) {
        errno = 0;
        return NULL;
    }
    *mode = status.st_mode & 07777;
    return realpath(name, NULL);
}

/* Fills the file that mkstemp opened. */
static bool fill(int descriptor, const struct output *output, mode_t mode)
{
    FILE *file = fdopen(descriptor, "wb");
    if (file == NULL) {
        close(descriptor);
        return false;
    }
    bool done = put_output(output, file) && fflush(file) == 0 && fchmod(descriptor, mode) == 0;
    int reason = errno;
    if (fclose(file) != 0 && done) {
        return false;
    }
    errno = reason;
    return done;
}

/* Makes the file under its other name and notes it; no signal comes between the two. */
static int open_temporary(struct pending *file)
{
    static const char suffix[] = ".XXXXXX";
    size_t len = strlen(file->target);
    char *name = malloc(len + sizeof suffix);
    if (name == NULL) {
        return -1;
    }
    memcpy(name, file->target, len);
    memcpy(name + len, suffix, sizeof suffix);
    sigset_t before, ending = ending_set();
    sigprocmask(SIG_BLOCK, &ending, &before);
    int descriptor = mkstemp(name);
    int reason = errno;
    file->temporary = descriptor < 0 ? NULL : name;
    sigprocmask(SIG_SETMASK, &before, NULL);
    if (descriptor < 0) {
        free(name);
    }
    errno = reason;
    return descriptor;
}

static bool make_temporary(const struct output *output, struct pending *file)
{
    mode_t mode = 0;
    file->target = resolve(output->name, &mode);
    int descriptor = file->target == NULL ? -1 : open_temporary(file);
    return descriptor >= 0 && fill(descriptor, output, mode);
}

static bool prepare(const struct output *output, struct pending *file)
{
    if (make_temporary(output, file)) {
        return true;
    }
    if (errno == 0) {
        complain_of(output->name, "not a regular file");
    } else {
        complain(output->name);
    }
    return false;
}

/* Forgets a file under its other name, which has got its own or is to go. */
static void forget(struct pending *file)
{
    char *name = file->temporary;
    file->temporary = NULL;
    free(name);
}

/* -- Files that are written through ------------------------------------------------------------ */

/* Whether a name leads to a device or a pipe, which is written to and stays. */
static bool is_written_through(const char *name)
{
    struct stat status;
    return stat(name, &status) == 0 && (S_ISCHR(status.st_mode) || S_ISFIFO(status.st_mode));
}

static bool write_through(const struct output *output)
{
    FILE *file = fopen(output->name, "wb");
    bool done = file != NULL && put_output(output, file);
    if ((file != NULL && fclose(file) != 0) || !done) {
        complain(output->name);
        return false;
    }
    return true;
}

/* -- All outputs ------------------------------------------------------------------------------ */

/* How an output is written. */
enum way { NOT_AT_ALL, REPLACED, THROUGH, STANDARD };

static enum way way_of(const struct output *output)
{
    if (output->name == NULL) {
        return NOT_AT_ALL;
    }
    if (is_standard_output(output->name)) {
        return STANDARD;
    }
    return is_written_through(output->name) ? THROUGH : REPLACED;
}

/* What can fail without a trace comes first. */
static bool prepare_all(const struct output *outputs, const enum way *ways, size_t count)
{
    for (size_t i = 0; i < count; i++) {
        if (ways[i] == REPLACED && !prepare(&outputs[i], &pending[i])) {
            return false;
        }
    }
    return true;
}

static bool write_through_all(const struct output *outputs, const enum way *ways, size_t count)
{
    for (size_t i = 0; i < count; i++) {
        if (ways[i] == THROUGH && !write_through(&outputs[i])) {
            return false;
        }
    }
    return true;
}

/* Gives each file its name; those for standard output are written there. */
static bool finish(const struct output *outputs, const enum way *ways, size_t count)
{
    for (size_t i = 0; i < count; i++) {
        if (ways[i] == STANDARD) {
            put_output(&outputs[i], stdout);
        } else if (ways[i] == REPLACED) {
            if (rename(pending[i].temporary, pending[i].target) != 0) {
                complain(outputs[i].name);
                return false;
            }
            forget(&pending[i]);
        }
    }
    return true;
}

bool write_outputs(const struct output *outputs, size_t count)
{
    enum way ways[OUTPUTS_MAX];
    for (size_t i = 0; i < count; i++) {
        ways[i] = way_of(&outputs[i]);
    }
    catch_signals();
    bool done = prepare_all(outputs, ways, count) && write_through_all(outputs, ways, count) &&
                finish(outputs, ways, count);
    for (size_t i = 0; i < count; i++) {
        if (pending[i].temporary != NULL) {
            unlink(pending[i].temporary);
        }
        forget(&pending[i]);
        free(pending[i].target);
        pending[i].target = NULL;
    }
    return done;
}
