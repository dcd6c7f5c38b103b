/* A line of the text form: its words, and the errors that are found in it. */
#ifndef ASM_LINE_H
#define ASM_LINE_H

#include "asm.h"
#include "nearest.h"

/* A word of a line; an empty one stands for the line's end. */
struct token {
    const char *at;
    size_t len;
    size_t column;
};

struct line {
    struct assembly *assembly; /* where errors go */
    const char *start;
    const char *rest; /* the words that are not taken yet */
    const char *end;
    size_t number;
    const struct part_form *part; /* whose numbers were taken last; NULL: none */
    bool faulty;      /* an error was reported */
    bool ends_early;  /* that the line ends too soon was reported */
};

/* The next word, which stays in the line. */
struct token peek(struct line *line);

/* The next word, taken. */
struct token take(struct line *line);

/* Goes to a word further on and takes it; false if there is none. */
bool skip_to(struct line *line, const char *word);

bool is_word(struct token token, const char *word);

/* Adds a word as it stands in the text, cut and without what cannot be printed. */
void add_token(struct text *text, struct token token);

/* Counts an error and puts it in its place among the first ones. */
void add_error(struct assembly *assembly, size_t line, size_t column, const struct text *sentence);

/* Reports an error at a column of the line. */
void report(struct line *line, size_t column, const struct text *sentence);

/* Reports "SENTENCE, not 'WORD'" at a word; at the line's end "SENTENCE", and there only once. */
void report_expected(struct line *line, const char *sentence, struct token found);

/* The same, and which word may be meant. */
void report_misspelt(struct line *line, const char *sentence, struct token found, const struct nearest *nearest);

#endif
