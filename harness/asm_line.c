#include "asm_line.h"

#include <string.h>

/* -- Words ------------------------------------------------------------------------------------ */

static bool is_blank(char c)
{
    return c == ' ' || c == '\t' || c == '\r';
}

struct token peek(struct line *line)
{
    while (line->rest < line->end && is_blank(*line->rest)) {
        line->rest++;
    }
    const char *end = line->rest;
    while (end < line->end && !is_blank(*end)) {
        end++;
    }
    return (struct token){line->rest, (size_t)(end - line->rest), (size_t)(line->rest - line->start) + 1};
}

struct token take(struct line *line)
{
    struct token token = peek(line);
    line->rest = token.at + token.len;
    return token;
}

bool skip_to(struct line *line, const char *word)
{
    const char *rest = line->rest;
    for (struct token token = take(line); token.len > 0; token = take(line)) {
        if (is_word(token, word)) {
            return true;
        }
    }
    line->rest = rest;
    return false;
}

bool is_word(struct token token, const char *word)
{
    return token.len == strlen(word) && memcmp(token.at, word, token.len) == 0;
}

/* -- Errors ----------------------------------------------------------------------------------- */

void add_token(struct text *text, struct token token)
{
    enum { SHOWN = 40 };
    for (size_t i = 0; i < token.len && i < SHOWN; i++) {
        bool printable = token.at[i] >= ' ' && token.at[i] <= '~';
        add_text(text, "%c", printable ? token.at[i] : '?');
    }
    add_text(text, "%s", token.len > SHOWN ? ".." : "");
}

/* Whether an error stands before another one in the text. */
static bool is_before(const struct asm_error *one, const struct asm_error *other)
{
    return one->line != other->line ? one->line < other->line : one->column < other->column;
}

void add_error(struct assembly *assembly, size_t line, size_t column, const struct text *sentence)
{
    const struct asm_error error = {line, column, *sentence};
    struct asm_error *errors = assembly->errors;
    size_t at = assembly->error_count < ASM_ERRORS_KEPT ? assembly->error_count : ASM_ERRORS_KEPT;
    for (; at > 0 && is_before(&error, &errors[at - 1]); at--) {
        errors[at] = errors[at - 1];
    }
    errors[at] = error;
    assembly->error_count++;
}

void report(struct line *line, size_t column, const struct text *sentence)
{
    add_error(line->assembly, line->number, column, sentence);
    line->faulty = true;
}

void report_expected(struct line *line, const char *sentence, struct token found)
{
    struct nearest none = nearest_to(found.at, found.len);
    report_misspelt(line, sentence, found, &none);
}

void report_misspelt(struct line *line, const char *sentence, struct token found, const struct nearest *nearest)
{
    bool at_end = found.len == 0;
    struct text text = {.len = 0};
    add_text(&text, "%s", sentence);
    if (!at_end) {
        add_text(&text, ", not '");
        add_token(&text, found);
        add_text(&text, "'");
        add_nearest(&text, nearest, "'");
    }
    if (!at_end || !line->ends_early) {
        report(line, found.column, &text);
    }
    line->ends_early |= at_end;
}
