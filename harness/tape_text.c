#define _POSIX_C_SOURCE 200809L

#include "tape_text.h"

#include <inttypes.h>
#include <stdio.h>

/* Past 32 bits, and a further digit still fits in 64. */
#define FAR_PAST_32_BITS INT64_C(10000000000)

static bool is_blank(int c)
{
    return c == ' ' || c == '\t' || c == '\r';
}

static bool is_digit(int c)
{
    return c >= '0' && c <= '9';
}

/* The next character that is no blank. */
static int skip_blanks(FILE *file)
{
    int c = getc(file);
    while (is_blank(c)) {
        c = getc(file);
    }
    return c;
}

/* Reads a decimal number of 32 bits; the character after it is left to be read. */
static bool read_number(FILE *file, int32_t *number)
{
    int c = skip_blanks(file);
    bool negative = c == '-';
    if (negative) {
        c = getc(file);
    }
    if (!is_digit(c)) {
        return false;
    }
    int64_t value = 0;
    for (; is_digit(c); c = getc(file)) {
        if (value < FAR_PAST_32_BITS) {
            value = 10 * value + (c - '0');
        }
    }
    ungetc(c, file);
    value = negative ? -value : value;
    *number = (int32_t)value;
    return value >= INT32_MIN && value <= INT32_MAX;
}

/* Whether the numbers of a record are followed by the end of the line or of the file. */
static bool at_line_end(FILE *file)
{
    int c = skip_blanks(file);
    return c == '\n' || c == EOF;
}

static bool read_record(FILE *file, int32_t *numbers)
{
    for (int i = 0; i < MOONBLEAT_RECORD_NUMBERS; i++) {
        if (!read_number(file, numbers + i)) {
            return false;
        }
        int next = getc(file);
        ungetc(next, file);
        if (i + 1 < MOONBLEAT_RECORD_NUMBERS && !is_blank(next)) {
            return false;
        }
    }
    return at_line_end(file);
}

static bool at_end(FILE *file)
{
    int c = getc(file);
    ungetc(c, file);
    return c == EOF;
}

static bool read_records(FILE *file, struct tape *tape)
{
    tape->records = 0;
    while (tape->records <= MOONBLEAT_RECORDS_MAX && !at_end(file)) {
        if (!read_record(file, tape->numbers + MOONBLEAT_RECORD_NUMBERS * tape->records)) {
            return false;
        }
        tape->records++;
    }
    return true;
}

/* Reads the records of a stream that is open. */
static bool read_stream(const char *name, FILE *file, struct tape *tape)
{
    bool done = read_records(file, tape);
    if (ferror(file)) {
        complain(name);
        return false;
    }
    if (!done) {
        complain_of(name, "line %zu is no record of six 32-bit numbers", tape->records + 1);
    }
    return done;
}

bool read_tape(const char *name, struct tape *tape)
{
    FILE *file = open_input(name);
    if (file == NULL) {
        return false;
    }
    bool done = read_stream(name, file, tape);
    close_input(file);
    return done;
}

bool take_tape(const char *name, const struct bytes *file, struct tape *tape)
{
    tape->records = 0;
    if (file->len == 0) {
        return true;
    }
    FILE *stream = fmemopen(file->at, file->len, "rb");
    if (stream == NULL) {
        complain(name);
        return false;
    }
    bool done = read_stream(name, stream, tape);
    fclose(stream);
    return done;
}

void print_tape(const int32_t *numbers, size_t records)
{
    for (size_t i = 0; i < records * MOONBLEAT_RECORD_NUMBERS; i++) {
        bool last = i % MOONBLEAT_RECORD_NUMBERS == MOONBLEAT_RECORD_NUMBERS - 1;
        printf("%" PRId32 "%c", numbers[i], last ? '\n' : ' ');
    }
}

void json_records(struct json *json, const int32_t *numbers, size_t records)
{
    json_open(json, "records", '[');
    for (size_t i = 0; i < records; i++) {
        json_open(json, NULL, '[');
        for (size_t n = 0; n < MOONBLEAT_RECORD_NUMBERS; n++) {
            json_number(json, NULL, *numbers++);
        }
        json_close(json, ']');
    }
    json_close(json, ']');
}
