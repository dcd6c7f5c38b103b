#include "names.h"

#include <stdbool.h>
#include <stddef.h>
#include <stdint.h>
#include <string.h>

/* The longest UTF-8 sequence. */
enum { SEQUENCE_MAX = 4 };

/* Code points that no reader sees: controls, marks of direction and of line ends, and such. */
static const struct {
    uint32_t first;
    uint32_t last;
} unseen[] = {
    {0x00, 0x1F},     {0x7F, 0xA0},     {0xAD, 0xAD},     {0x200B, 0x200F},
    {0x2028, 0x202F}, {0x2060, 0x206F}, {0xFEFF, 0xFEFF},
};

static bool is_unseen(uint32_t point)
{
    for (size_t i = 0; i < sizeof unseen / sizeof unseen[0]; i++) {
        if (point >= unseen[i].first && point <= unseen[i].last) {
            return true;
        }
    }
    return false;
}

/* The bytes of a UTF-8 sequence by its first one, 0 if it is none's. */
static size_t sequence_length(unsigned char first)
{
    if (first < 0x80) {
        return 1;
    }
    if (first >= 0xC2 && first <= 0xDF) {
        return 2;
    }
    if (first >= 0xE0 && first <= 0xEF) {
        return 3;
    }
    return first >= 0xF0 && first <= 0xF4 ? 4 : 0;
}

/* Reads a UTF-8 sequence; gives its length, 0 if there is none. */
static size_t read_point(const char *at, uint32_t *point)
{
    /* The least code point that needs so many bytes. */
    static const uint32_t least[] = {0, 0, 0x80, 0x800, 0x10000};
    size_t length = sequence_length((unsigned char)*at);
    *point = length < 2 ? (unsigned char)*at : (unsigned char)*at & (0x7Fu >> length);
    for (size_t i = 1; i < length; i++) {
        if (((unsigned char)at[i] & 0xC0) != 0x80) {
            return 0;
        }
        *point = *point << 6 | ((unsigned char)at[i] & 0x3Fu);
    }
    bool is_surrogate = *point >= 0xD800 && *point <= 0xDFFF;
    return length > 0 && *point >= least[length] && *point <= 0x10FFFF && !is_surrogate ? length : 0;
}

/* Whether a name can be read as it stands, as one word. */
static bool is_plain(const char *name)
{
    if (*name == '\0') {
        return false;
    }
    while (*name != '\0') {
        uint32_t point;
        size_t length = read_point(name, &point);
        if (length == 0 || is_unseen(point) || strchr(" \"\\", *name) != NULL) {
            return false;
        }
        name += length;
    }
    return true;
}

/* Room for a character as it is written: each byte of the longest sequence as \xHH. */
enum { SHOWN_ROOM = 4 * SEQUENCE_MAX + 1 };

static void escape(const char *at, size_t length, char shown[SHOWN_ROOM])
{
    switch (*at) {
    case '\n':
        snprintf(shown, SHOWN_ROOM, "\\n");
        break;
    case '\t':
        snprintf(shown, SHOWN_ROOM, "\\t");
        break;
    case '"':
    case '\\':
        snprintf(shown, SHOWN_ROOM, "\\%c", *at);
        break;
    default:
        for (size_t i = 0; i < length; i++) {
            snprintf(shown + 4 * i, SHOWN_ROOM - 4 * i, "\\x%02X", (unsigned)(unsigned char)at[i]);
        }
    }
}

/* Takes the next character of a text as it is to be written: escaped if it cannot be seen or is one of
 * `others`. Gives the rest of the text. */
static const char *show_next(const char *text, const char *others, char shown[SHOWN_ROOM])
{
    uint32_t point;
    size_t length = read_point(text, &point);
    if (length == 0 || is_unseen(point) || strchr(others, *text) != NULL) {
        length = length == 0 ? 1 : length;
        escape(text, length, shown);
    } else {
        memcpy(shown, text, length);
        shown[length] = '\0';
    }
    return text + length;
}

static void put_visible(const struct sink *sink, const char *text, const char *others)
{
    char character[SHOWN_ROOM];
    while (*text != '\0') {
        text = show_next(text, others, character);
        sink->put(sink->file, character);
    }
}

/* What is escaped between double quotes besides what cannot be seen. */
#define QUOTED_OTHERS "\"\\"

static void put_in_quotes(const struct sink *sink, const char *name)
{
    sink->put(sink->file, "\"");
    put_visible(sink, name, QUOTED_OTHERS);
    sink->put(sink->file, "\"");
}

void put_name(const struct sink *sink, const char *name)
{
    if (is_plain(name)) {
        sink->put(sink->file, name);
    } else {
        put_in_quotes(sink, name);
    }
}

/* Whether a word of the command line can stand in a message as it is: all of it is seen, and it does not
 * look like a quoted one. */
static bool is_clear(const char *word)
{
    bool clear = *word != '"';
    while (clear && *word != '\0') {
        uint32_t point;
        size_t length = read_point(word, &point);
        clear = length > 0 && !is_unseen(point);
        word += length;
    }
    return clear;
}

void put_word(FILE *file, const char *word)
{
    if (is_clear(word)) {
        fputs(word, file);
    } else {
        put_in_quotes(&(struct sink){file, put_plain}, word);
    }
}

struct text shown(const char *word)
{
    struct text text = {.len = 0};
    if (is_clear(word)) {
        add_text(&text, "%s", word);
        return text;
    }
    char character[SHOWN_ROOM];
    add_text(&text, "\"");
    while (*word != '\0') {
        word = show_next(word, QUOTED_OTHERS, character);
        add_text(&text, "%s", character);
    }
    add_text(&text, "\"");
    return text;
}

void put_sentence(const struct sink *sink, const char *text)
{
    put_visible(sink, text, "");
}

void put_plain(FILE *file, const char *text)
{
    fputs(text, file);
}

void put_html(FILE *file, const char *text)
{
    for (; *text != '\0'; text++) {
        switch (*text) {
        case '&':
            fputs("&amp;", file);
            break;
        case '<':
            fputs("&lt;", file);
            break;
        case '>':
            fputs("&gt;", file);
            break;
        case '"':
            fputs("&quot;", file);
            break;
        case '\'':
            fputs("&#39;", file);
            break;
        default:
            putc(*text, file);
        }
    }
}

void put_quoted(FILE *file, const char *text)
{
    for (; *text != '\0'; text++) {
        if (*text == '"') {
            putc('"', file);
        }
        putc(*text, file);
    }
}

void put_csv(FILE *file, const char *text)
{
    bool is_quoted = strpbrk(text, ",\"\r\n") != NULL;
    fputs(is_quoted ? "\"" : "", file);
    put_quoted(file, text);
    fputs(is_quoted ? "\"" : "", file);
}

void put_json(FILE *file, const char *text)
{
    putc('"', file);
    while (*text != '\0') {
        uint32_t point;
        size_t length = read_point(text, &point);
        if (length == 0) {
            fprintf(file, "\\udc%02x", (unsigned)(unsigned char)*text);
            length = 1;
        } else if (point < ' ' || *text == '"' || *text == '\\') {
            fprintf(file, "\\u%04x", (unsigned)point);
        } else {
            fwrite(text, 1, length, file);
        }
        text += length;
    }
    putc('"', file);
}
