/* The command-line tool: sheets, memories and tapes as files. command.h says how a command is
 * added. */
#include <stdio.h>
#include <string.h>

#include "command.h"
#include "files.h"
#include "help.h"

static int perform(const struct command *command, char **words, size_t count)
{
    struct request request;
    int status = parse_request(command, words, count, &request);
    if (status == DONE && request.help) {
        print_help(command);
    } else if (status == DONE) {
        status = command->perform(&request);
    }
    free_request(&request);
    return status;
}

/* What was printed must have arrived. */
static int flushed(int status)
{
    if (fflush(stdout) != 0 || ferror(stdout)) {
        complain("standard output");
        return FAILED;
    }
    return status;
}

int main(int argc, char **argv)
{
    if (argc < 2) {
        return wrong_use(NULL, "what is to be done?");
    }
    if (strcmp(argv[1], "--help") == 0 || strcmp(argv[1], "-h") == 0) {
        print_help(NULL);
        return flushed(DONE);
    }
    if (strcmp(argv[1], "--version") == 0) {
        print_version();
        return flushed(DONE);
    }
    const struct command *command = find_command(argv[1]);
    if (command == NULL) {
        return unknown_command(argv[1]);
    }
    return flushed(perform(command, argv + 2, (size_t)argc - 2));
}
