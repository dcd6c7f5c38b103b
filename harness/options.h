/* The words of the command line: files, options, and the words after options. */
#ifndef OPTIONS_H
#define OPTIONS_H

#include <stdbool.h>
#include <stddef.h>

/* Every option that some command takes; its row is in options.c. */
enum option {
    OPTION_MEMORY,
    OPTION_ELEMENT,
    OPTION_OUT,
    OPTION_REGISTERS,
    OPTION_MASKS,
    OPTION_KEPT_MASKS,
    OPTION_HEX,
    OPTION_AS,
    OPTION_JSON,
    OPTION_ASM,
    OPTION_MAN,
    OPTION_CARD,
    OPTION_CARD_REGISTERS,
    OPTION_CARD_TRACE,
    OPTION_ALL,
    OPTION_JOBS,
    OPTION_CSV,
    OPTION_HTML,
    OPTION_SHARD,
    OPTION_MERGE,
    OPTION_NAME,
    OPTION_SINCE,
    OPTION_ONLY_CARD,
    OPTION_MISSING,
    OPTION_NUL,
    OPTIONS
};

/* An option in a set of options. */
#define SET(option) (1u << (option))

struct option_form {
    const char *name;
    const char *value; /* what the help calls the word after it; NULL for a switch */
    const char *help;
    bool repeats; /* may be given more than once */
    bool reads;   /* the word is a file that is read .. */
    bool writes;  /* .. or written */
};

extern const struct option_form option_forms[OPTIONS];

/* An option that repeats, once. */
struct repeated {
    enum option option;
    const char *word;
};

/* What the command line asks for. */
struct request {
    char **files;
    size_t file_count;
    const char *words[OPTIONS]; /* of each option that is given its (last) word, of a switch its name */
    struct repeated *repeated;  /* all words of options that repeat, in order */
    size_t repeated_count;
    size_t memory;              /* 65,536 where --memory is not given */
    bool help;                  /* --help: nothing else counts */
};

struct command;

/* Says what is wrong with the command line and how the command is used (NULL: any command); gives
 * the exit status. Words of the command line go in as names.h shows them. */
int wrong_use(const struct command *command, const char *format, ...) __attribute__((format(printf, 2, 3)));

/* Reads the words after a command's name; gives an exit status. The files are moved to the front
 * of `words`. */
int parse_request(const struct command *command, char **words, size_t count, struct request *request);

/* Frees what a request holds, whatever its parsing gave. */
void free_request(struct request *request);

#endif
