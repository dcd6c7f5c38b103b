#include "help.h"

#include <stdbool.h>

#include "moonbleat.h"
#include "text.h"

#define WORD_OF(number) #number
#define WORD(number) WORD_OF(number)
#define VERSION WORD(MOONBLEAT_VERSION_MAJOR) "." WORD(MOONBLEAT_VERSION_MINOR) "." WORD(MOONBLEAT_VERSION_PATCH)

/* A heading of the help and its lines. */
struct section {
    const char *heading;
    const char *lines;
};

static const char purpose[] = "reference software for tensor shaders: write, check and carry out sheets";

/* What holds for every command. */
static const struct section sections[] = {
    {"FILES",
     "MEMORY and TRACE are files of bytes, TAPE and TEXT are lines of text, and a SHEET is either, its\n"
     "bytes or its text form: a text has no control character but tabs and line ends among its first\n"
     "three bytes, and a sheet that is read has one. - is standard input, and as an OUT or a FILE, like\n"
     "/dev/stdout, standard output, which then gets nothing else. OUT and FILE are written only if nothing\n"
     "was refused, and whole or not at all: a file that is there keeps its mode, and a symbolic link is\n"
     "written through. Pipes and devices are written to as they are. An output that would replace a file\n"
     "that is read is refused; run may replace its memory, if OUT is the same word. A number is decimal,\n"
     "or hex behind 0x. A word after -- is a file. docs/SHEETS.md and docs/NIGHT.md are installed in\n"
     "share/doc/moonbleat.\n"},
    {"EXIT STATUS",
     "0 accepted; 1 refused, with number, place and sentence on standard error (with --json in the\n"
     "object); 2 wrong use; 3 a file could not be read or written, or a line of it is wrong.\n"
     "replay, touched, diff and night: see there.\n"},
};

enum { SECTIONS = sizeof sections / sizeof sections[0] };

static void add_option(struct text *text, const struct option_form *form, bool needed)
{
    const char *value = form->value == NULL ? "" : form->value;
    add_text(text, " %s%s%s%s%s%s", needed ? "" : "[", form->name, *value == '\0' ? "" : " ", value,
             needed ? "" : "]", form->repeats ? " .." : "");
}

/* A command with its files and options, as it is written on the command line. */
static struct text synopsis(const struct command *command)
{
    struct text text = {.len = 0};
    add_text(&text, "moonbleat %s %s", command->name, command->files);
    for (unsigned option = 0; option < OPTIONS; option++) {
        if ((command->takes & SET(option)) != 0) {
            add_option(&text, &option_forms[option], (command->needs & SET(option)) != 0);
        }
    }
    return text;
}

void print_usage(FILE *file, const struct command *command)
{
    if (command != NULL) {
        fprintf(file, "usage: %s\n", synopsis(command).at);
        return;
    }
    fputs("usage:\n", file);
    for (const struct command *const *each = commands; *each != NULL; each++) {
        fprintf(file, "  %s\n", synopsis(*each).at);
    }
    fputs("  moonbleat --version\n", file);
}

static void print_option_help(const struct command *command, unsigned option)
{
    const struct option_form *form = &option_forms[option];
    printf("\n  %s %s\n      ", form->name, form->value == NULL ? "" : form->value);
    if (option == OPTION_OUT) {
        printf("write %s to OUT\n", command->out);
    } else {
        puts(form->help);
    }
}

static void print_command_help(const struct command *command)
{
    print_usage(stdout, command);
    printf("\n%s\n", command->summary);
    if (command->details != NULL) {
        printf("\n%s", command->details);
    }
    for (unsigned option = 0; option < OPTIONS; option++) {
        if ((command->takes & SET(option)) != 0) {
            print_option_help(command, option);
        }
    }
}

static void print_tool_help(void)
{
    printf("moonbleat: %s\n\n", purpose);
    print_usage(stdout, NULL);
    putchar('\n');
    for (const struct command *const *command = commands; *command != NULL; command++) {
        printf("  %-11s%s\n", (*command)->name, (*command)->summary);
    }
    for (size_t i = 0; i < SECTIONS; i++) {
        printf("\n%s\n%s", sections[i].heading, sections[i].lines);
    }
}

void print_help(const struct command *command)
{
    if (command == NULL) {
        print_tool_help();
    } else {
        print_command_help(command);
    }
}

void print_version(void)
{
    puts("moonbleat " VERSION);
}

/* -- The manual page -------------------------------------------------------------------------- */

/* Prints a line so that the formatter takes none of its characters for its own; gives its end. */
static const char *print_escaped(const char *line)
{
    for (; *line != '\0' && *line != '\n'; line++) {
        if (*line == '\\') {
            fputs("\\e", stdout);
        } else if (*line == '-') {
            fputs("\\-", stdout);
        } else {
            putchar(*line);
        }
    }
    return line;
}

/* Lines of text; an indented one stands as it is, an empty one ends a paragraph. */
static void print_man_lines(const char *lines)
{
    bool verbatim = false;
    while (*lines != '\0') {
        bool indented = *lines == ' ';
        if (indented != verbatim) {
            puts(indented ? ".PP\n.nf" : ".fi\n.PP");
        }
        verbatim = indented;
        /* \& keeps a line that begins with a dot or a quote from being a request. */
        fputs(*lines == '\n' ? ".PP" : "\\&", stdout);
        lines = print_escaped(lines);
        putchar('\n');
        lines += *lines == '\n';
    }
    if (verbatim) {
        puts(".fi");
    }
}

static void print_man_page(void)
{
    printf(".TH MOONBLEAT 1 \"\" \"moonbleat %s\"\n.SH NAME\nmoonbleat \\- %s\n.SH SYNOPSIS\n", VERSION, purpose);
    puts(".nf");
    for (const struct command *const *command = commands; *command != NULL; command++) {
        print_escaped(synopsis(*command).at);
        putchar('\n');
    }
    puts(".fi\n.SH COMMANDS");
    for (const struct command *const *command = commands; *command != NULL; command++) {
        printf(".SS %s\n%s.\n.PP\n", (*command)->name, (*command)->summary);
        if ((*command)->details != NULL) {
            print_man_lines((*command)->details);
        }
    }
    puts(".SH OPTIONS");
    for (unsigned option = 0; option < OPTIONS; option++) {
        fputs(".TP\n.B ", stdout);
        print_escaped(option_forms[option].name);
        printf(" %s\n%s\n", option_forms[option].value == NULL ? "" : option_forms[option].value,
               option_forms[option].help);
    }
    for (size_t i = 0; i < SECTIONS; i++) {
        printf(".SH %s\n", sections[i].heading);
        print_man_lines(sections[i].lines);
    }
}

/* -- The command ------------------------------------------------------------------------------ */

static int do_help(const struct request *request)
{
    if (request->words[OPTION_MAN] != NULL) {
        print_man_page();
        return DONE;
    }
    const struct command *command = NULL;
    if (request->file_count > 0) {
        command = find_command(request->files[0]);
        if (command == NULL) {
            return unknown_command(request->files[0]);
        }
    }
    print_help(command);
    return DONE;
}

const struct command help_command = {
    .name = "help",
    .files = "[COMMAND]",
    .files_max = 1,
    .takes = SET(OPTION_MAN),
    .summary = "say all about a command, or about the tool",
    .perform = do_help,
};
