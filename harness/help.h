/* The help and the manual page, both made of the rows of commands and options. */
#ifndef HELP_H
#define HELP_H

#include <stdio.h>

#include "command.h"

/* Prints how a command is used; NULL: any command. */
void print_usage(FILE *file, const struct command *command);

/* Prints all about a command, or about the tool if it is NULL, on standard output. */
void print_help(const struct command *command);

/* Prints the version on standard output. */
void print_version(void);

#endif
