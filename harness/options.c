#include "options.h"

#include <stdarg.h>
#include <stdio.h>
#include <stdlib.h>
#include <string.h>
#include <unistd.h>

#include "command.h"
#include "files.h"
#include "help.h"
#include "moonbleat.h"
#include "names.h"
#include "nearest.h"
#include "numbers.h"
#include "outputs.h"
#include "same_file.h"

const struct option_form option_forms[OPTIONS] = {
    [OPTION_MEMORY] = {"--memory", "N", "the memory's length in bytes, decimal or 0x and hex; 65536 if not given"},
    [OPTION_ELEMENT] = {"--element", "E", "tell the way of one element: its number, or ROW,COLUMN"},
    [OPTION_OUT] = {"-o", "OUT",
                    "write what comes out to OUT: the memory afterwards, the sheet of asm, the trace, or the report of "
                    "night",
                    .writes = true},
    [OPTION_REGISTERS] = {"--registers", "FILE", "write the registers to FILE: 16 type bytes, then 1024 elements",
                          .writes = true},
    [OPTION_MASKS] = {"--masks", "FILE", "write the masks to FILE: 34 bytes for each of 32 steps", .writes = true},
    [OPTION_KEPT_MASKS] = {"--masks", "FILE", "ask the masks in FILE, as tape --masks writes them; SHEET is left out",
                           .reads = true},
    [OPTION_HEX] = {"--hex", NULL, "print the memory afterwards in hex, and which steps wrote it"},
    [OPTION_AS] = {"--as", "FORM", "take the file for a sheet, trace, tape or masks, whatever its bytes look like"},
    [OPTION_JSON] = {"--json", NULL, "print one JSON object in place of text"},
    [OPTION_ASM] = {"--asm", NULL, "print the text form, which asm takes"},
    [OPTION_MAN] = {"--man", NULL, "print the manual page"},
    [OPTION_CARD] = {"--card", "NAME=AFTER", "compare card NAME, which left the memory AFTER", .repeats = true},
    [OPTION_CARD_REGISTERS] = {"--registers", "NAME=FILE",
                               "compare its registers too: FILE is as run --registers writes it", .repeats = true},
    [OPTION_CARD_TRACE] = {"--trace", "NAME=FILE", "compare its trace too: FILE is as trace -o writes it",
                           .repeats = true},
    [OPTION_ALL] = {"--all", NULL, "list every difference, in runs"},
    [OPTION_JOBS] = {"-j", "N", "work in N processes; the output is the same"},
    [OPTION_CSV] = {"--csv", NULL, "print a table of comma-separated values in place of text"},
    [OPTION_HTML] = {"--html", "FILE", "also write the report to FILE as a page to send", .writes = true},
    [OPTION_SHARD] = {"--shard", "K/N", "take the K-th of N parts of the folder's sheets"},
    [OPTION_MERGE] = {"--merge", NULL, "make one report of the JSON reports of all parts"},
    [OPTION_NAME] = {"--name", "NAME", "call the night NAME in place of its folder's name"},
    [OPTION_SINCE] = {"--since", "LAST", "say what is new, mended and still differs since the JSON report LAST",
                      .reads = true},
    [OPTION_ONLY_CARD] = {"--card", "NAME", "report this card alone; may be given more than once", .repeats = true},
    [OPTION_MISSING] = {"--missing", NULL, "print which sheets have no result of which card yet, and compare nothing"},
    [OPTION_NUL] = {"-0", NULL, "end what --missing prints with NUL bytes in place of line ends"},
};

int wrong_use(const struct command *command, const char *format, ...)
{
    va_list arguments;
    va_start(arguments, format);
    fputs("moonbleat: ", stderr);
    vfprintf(stderr, format, arguments);
    fputc('\n', stderr);
    va_end(arguments);
    print_usage(stderr, command);
    return WRONG_USE;
}

static bool is_option(const char *word)
{
    return word[0] == '-' && word[1] != '\0';
}

/* The length of an option's name in a word: all of it, or what is before the = of a long one. */
static size_t name_length(const char *word)
{
    const char *equals = strncmp(word, "--", 2) == 0 ? strchr(word, '=') : NULL;
    return equals == NULL ? strlen(word) : (size_t)(equals - word);
}

/* The option that a word names, OPTIONS if the command takes none of that name. */
static enum option find_option(const struct command *command, const char *word)
{
    size_t len = name_length(word);
    unsigned option = 0;
    for (; option < OPTIONS; option++) {
        const char *name = option_forms[option].name;
        if ((command->takes & SET(option)) != 0 && strlen(name) == len && strncmp(name, word, len) == 0) {
            break;
        }
    }
    return (enum option)option;
}

/* Says that the command does not take an option, and which one may be meant. */
static int refuse_option(const struct command *command, const char *word)
{
    struct nearest nearest = nearest_to(word, name_length(word));
    for (unsigned option = 0; option < OPTIONS; option++) {
        if ((command->takes & SET(option)) != 0) {
            consider(&nearest, option_forms[option].name);
        }
    }
    consider(&nearest, "--help");
    struct text meant = {.len = 0};
    add_nearest(&meant, &nearest, "");
    return wrong_use(command, "%s does not take %s%s", command->name, shown(word).at, meant.at);
}

static int take_memory(const struct command *command, const char *word, struct request *request)
{
    uint64_t length;
    if (!parse_number(word, strlen(word), &length) || length > SIZE_MAX) {
        return wrong_use(command, "--memory %s: not a length in bytes", shown(word).at);
    }
    request->memory = (size_t)length;
    return DONE;
}

/* Takes the option at words[*at] and the word after it, which may stand behind a =. */
static int take_option(const struct command *command, char **words, size_t count, size_t *at, struct request *request)
{
    const char *word = words[*at];
    enum option option = find_option(command, word);
    if (option == OPTIONS) {
        return refuse_option(command, word);
    }
    const struct option_form *form = &option_forms[option];
    const char *value = word[name_length(word)] == '=' ? word + name_length(word) + 1 : NULL;
    if (form->value == NULL && value != NULL) {
        return wrong_use(command, "%s takes no word after it", form->name);
    }
    if (form->value != NULL && value == NULL && *at + 1 < count) {
        value = words[++*at];
    }
    if (form->value != NULL && value == NULL) {
        return wrong_use(command, "%s needs a word after it", form->name);
    }
    if (request->words[option] != NULL && !form->repeats) {
        return wrong_use(command, "%s is given twice", form->name);
    }
    if (form->repeats) {
        request->repeated[request->repeated_count++] = (struct repeated){option, value};
    }
    request->words[option] = form->value == NULL ? form->name : value;
    return option == OPTION_MEMORY ? take_memory(command, value, request) : DONE;
}

static int take_words(const struct command *command, char **words, size_t count, struct request *request)
{
    bool options_end = false;
    for (size_t i = 0; i < count; i++) {
        if (!options_end && strcmp(words[i], "--") == 0) {
            options_end = true;
        } else if (!options_end && (strcmp(words[i], "--help") == 0 || strcmp(words[i], "-h") == 0)) {
            request->help = true;
            return DONE;
        } else if (!options_end && is_option(words[i])) {
            int status = take_option(command, words, count, &i, request);
            if (status != DONE) {
                return status;
            }
        } else if (request->file_count == command->files_max) {
            return wrong_use(command, "%s takes %s, and %s is one more", command->name, command->files,
                             shown(words[i]).at);
        } else {
            request->files[request->file_count++] = words[i];
        }
    }
    return DONE;
}

/* The file that an option has the command read; NULL: none. */
static const char *read_by(const struct request *request, unsigned option)
{
    return option_forms[option].reads ? request->words[option] : NULL;
}

/* How many of the files are standard input, which can be read once. */
static size_t standard_inputs(const struct request *request)
{
    size_t count = 0;
    for (size_t i = 0; i < request->file_count; i++) {
        count += strcmp(request->files[i], STANDARD_STREAM) == 0;
    }
    for (unsigned option = 0; option < OPTIONS; option++) {
        const char *name = read_by(request, option);
        count += name != NULL && strcmp(name, STANDARD_STREAM) == 0;
    }
    return count;
}

/* How much of what is asked for goes to standard output that can be nothing but itself. */
static size_t standard_outputs(const struct request *request)
{
    static const enum option outputs[] = {OPTION_OUT, OPTION_REGISTERS, OPTION_MASKS};
    size_t count = request->words[OPTION_JSON] != NULL;
    for (size_t i = 0; i < sizeof outputs / sizeof outputs[0]; i++) {
        count += is_standard_output(request->words[outputs[i]]);
    }
    return count;
}

/* The file that an option has the command write; NULL: none. */
static const char *written_by(const struct request *request, unsigned option)
{
    return option_forms[option].writes ? request->words[option] : NULL;
}

/* Whether an output is the input that the command may write over, and is called so. */
static bool is_written_over(const struct command *command, const struct request *request, unsigned option, size_t file)
{
    return option == OPTION_OUT && file + 1 == command->overwrites &&
           strcmp(request->words[option], request->files[file]) == 0;
}

/* Whether an output would replace a file that is read; then it is told. */
static bool replaces(const struct request *request, unsigned option, const char *input)
{
    const char *output = written_by(request, option);
    bool same = is_same_file((struct file_name){output, STDOUT_FILENO}, (struct file_name){input, STDIN_FILENO});
    if (same) {
        complain_of(output, "%s would replace a file that is read, %s", option_forms[option].name, shown(input).at);
    }
    return same;
}

/* Whether two outputs go to one file; then it is told. */
static bool is_shared(const char *output, const char *other)
{
    bool same = is_same_file((struct file_name){output, STDOUT_FILENO}, (struct file_name){other, STDOUT_FILENO});
    if (same) {
        complain_of(output, "two outputs go to this file");
    }
    return same;
}

/* Whether an output would replace a file that is read, or one that an earlier output goes to. */
static bool is_clash(const struct command *command, const struct request *request, unsigned option)
{
    for (size_t i = 0; i < request->file_count; i++) {
        if (!is_written_over(command, request, option, i) && replaces(request, option, request->files[i])) {
            return true;
        }
    }
    for (unsigned other = 0; other < OPTIONS; other++) {
        const char *input = read_by(request, other), *output = other < option ? written_by(request, other) : NULL;
        if ((input != NULL && replaces(request, option, input)) ||
            (output != NULL && is_shared(written_by(request, option), output))) {
            return true;
        }
    }
    return false;
}

/* Nothing is read or written yet. */
static bool has_clash(const struct command *command, const struct request *request)
{
    for (unsigned option = 0; option < OPTIONS; option++) {
        if (written_by(request, option) != NULL && is_clash(command, request, option)) {
            return true;
        }
    }
    return false;
}

static int check_request(const struct command *command, const struct request *request)
{
    if (request->file_count < command->files_min) {
        return wrong_use(command, "%s takes %s", command->name, command->files);
    }
    for (unsigned option = 0; option < OPTIONS; option++) {
        if ((command->needs & SET(option)) != 0 && request->words[option] == NULL) {
            const struct option_form *form = &option_forms[option];
            return wrong_use(command, "%s needs %s %s", command->name, form->name, form->value);
        }
    }
    if (standard_inputs(request) > 1) {
        return wrong_use(command, "standard input can be read only once");
    }
    if (standard_outputs(request) > 1) {
        return wrong_use(command, "standard output can take only one of -o, --registers, --masks and --json");
    }
    return has_clash(command, request) ? FAILED : DONE;
}

int parse_request(const struct command *command, char **words, size_t count, struct request *request)
{
    *request = (struct request){.files = words, .memory = MOONBLEAT_MEMORY_MAX};
    request->repeated = calloc(count + 1, sizeof request->repeated[0]);
    if (request->repeated == NULL) {
        complain(command->name);
        return FAILED;
    }
    int status = take_words(command, words, count, request);
    return status == DONE && !request->help ? check_request(command, request) : status;
}

void free_request(struct request *request)
{
    free(request->repeated);
}
