#include <string.h>

#include "command.h"
#include "names.h"
#include "nearest.h"

const struct command *const commands[] = {
    &asm_command,      &show_command,  &check_command,  &run_command,       &tape_command,
    &run_tape_command, &trace_command, &replay_command, &divisions_command, &where_command,
    &touched_command,  &diff_command,  &night_command,  &help_command,      NULL,
};

const struct command *find_command(const char *name)
{
    for (const struct command *const *command = commands; *command != NULL; command++) {
        if (strcmp(name, (*command)->name) == 0) {
            return *command;
        }
    }
    return NULL;
}

int unknown_command(const char *name)
{
    struct nearest nearest = nearest_to(name, strlen(name));
    for (const struct command *const *command = commands; *command != NULL; command++) {
        consider(&nearest, (*command)->name);
    }
    struct text meant = {.len = 0};
    add_nearest(&meant, &nearest, "");
    return wrong_use(NULL, "unknown command %s%s", shown(name).at, meant.at);
}
