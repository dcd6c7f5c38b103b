/*
 * A command of the tool. Each stands in a file of its own, cmd_NAME.c. To add one: write that file
 * with a `const struct command`, declare it below and give it a row in commands.c; an option that
 * no command has had yet gets a row in options.h and options.c. Help, man page and completion
 * follow from these rows.
 */
#ifndef COMMAND_H
#define COMMAND_H

#include <stddef.h>

#include "options.h"

/* Exit statuses. Where 1 is an answer, that cards differ or that an element was not touched, a refused sheet
 * or trace gets 4. */
enum { DONE = 0, REFUSED = 1, DIFFER = 1, UNTOUCHED = 1, WRONG_USE = 2, FAILED = 3, INPUT_REFUSED = 4 };

struct command {
    const char *name;
    const char *files; /* as the help calls them, "SHEET MEMORY" */
    size_t files_min;
    size_t files_max;
    size_t overwrites;   /* the file, counted from 1, that -o may name too and then replaces; 0: none */
    unsigned takes;      /* sets of options */
    unsigned needs;      /* ... of those that it takes */
    const char *out;     /* what -o writes, "the trace"; NULL: it takes none */
    const char *summary; /* one line */
    const char *details; /* further lines; an indented one is printed as it stands */
    int (*perform)(const struct request *request);
};

extern const struct command asm_command, show_command, check_command, run_command, tape_command, run_tape_command,
    trace_command, replay_command, divisions_command, where_command, touched_command, diff_command, night_command,
    help_command;

/* All commands in the help's order, NULL behind the last. */
extern const struct command *const commands[];

/* The command of a name, or NULL. */
const struct command *find_command(const char *name);

/* Says that there is no command of a name, and which one may be meant; gives the exit status. */
int unknown_command(const char *name);

#endif
