/*
 * Fuzzes the assembler: texts are damaged again and again, always in the same way. Whatever the
 * text, the assembler ends; errors stand inside the text and in its order; a text without errors
 * gives a sheet that the library reads, unless it allows a refused one, and the sheet's own text
 * gives the same bytes.
 *
 *   fuzz_text COUNT TEXT..      COUNT texts, made of those in the files
 */
#define _POSIX_C_SOURCE 200809L

#include <stdbool.h>
#include <stdio.h>
#include <stdlib.h>
#include <string.h>

#include "asm.h"
#include "files.h"
#include "moonbleat.h"
#include "round_trip.h"

enum { TEXT_MAX = 4096, SEEDS_MAX = 64, DAMAGES_MAX = 6 };

struct sample {
    char at[TEXT_MAX];
    size_t len;
};

/* Words that some line or other has. */
static const char *const words[] = {
    "edition 1\n", "edition 2\n", "edition 3\n", "allow refused\n", "layout L0 Repeat\n", "view V0 permutation 0\n",
    "dim size 8 stride 1 span 8\n", "clip rows 0 1\n", "fill r0 2x2 s8 -1\n", "load r0 L0 base 0\n",
    "store r0 L0 V0 base 16\n", "reduce r1 of r0 1x1 both add\n", "transpose r1 of r0\n",
    "multiply-add r0 A r1 B r2 C r3\n",
    "vector r1 s32 of r0 as packed-s8 matrix s8 4x4 column-major stride 4 offset 64 bias 96\n",
    "vector r0 u32 of r1 as u16 matrix s32 16x1 row-major stride 0 offset 1\n", "bytes 01 0100 01\n",
    "bytes 20\n", " none ", " 255 ", " 256 ", " -1 ", " 0x10 ", " 65536 ", " 4294967296 ", " 99999999999999999999 ",
    " L3 ", " V4 ", " r4 ", " x ", "#", "\n", "\r\n", "\t", "0", "x", " object r1 ", " object zeros ", " zeros ",
    " value 7 ", " offset -4097 ", " bias 0 ", " bias ", " packed-u8 ", " as 6 ", " row-major ",
};

static uint64_t state = 1;
static size_t accepted, failed;
static size_t read_sheets[MOONBLEAT_EDITION_MAX + 1]; /* by edition */

/* A number below a limit (xorshift; the same in every run). */
static size_t below(size_t limit)
{
    state ^= state << 13;
    state ^= state >> 7;
    state ^= state << 17;
    return (size_t)(state % limit);
}

/* Puts some characters in place of others. */
static void splice(struct sample *sample, size_t at, size_t removed, const char *put, size_t len)
{
    if (sample->len - removed + len > TEXT_MAX) {
        return;
    }
    memmove(sample->at + at + len, sample->at + at + removed, sample->len - at - removed);
    memcpy(sample->at + at, put, len);
    sample->len = sample->len - removed + len;
}

/* The start of a line of a text. */
static size_t some_line(const struct sample *sample)
{
    size_t at = below(sample->len + 1);
    while (at > 0 && sample->at[at - 1] != '\n') {
        at--;
    }
    return at;
}

static size_t line_length(const struct sample *sample, size_t at)
{
    const char *end = memchr(sample->at + at, '\n', sample->len - at);
    return end == NULL ? sample->len - at : (size_t)(end + 1 - sample->at) - at;
}

static void damage(struct sample *sample, const struct sample *other)
{
    size_t at = below(sample->len + 1), line = some_line(sample), other_line = some_line(other);
    size_t left = sample->len - at, removed = left == 0 ? 0 : below(left < 8 ? left : 8);
    const char *word = words[below(sizeof words / sizeof words[0])];
    char byte = (char)below(256);
    switch (below(6)) {
    case 0:
        splice(sample, at, left > 0, &byte, 1);
        break;
    case 1:
        splice(sample, at, removed, word, strlen(word));
        break;
    case 2:
        splice(sample, at, removed, "", 0);
        break;
    case 3:
        splice(sample, line, line_length(sample, line), "", 0);
        break;
    case 4:
        splice(sample, line, 0, other->at + other_line, line_length(other, other_line));
        break;
    default:
        splice(sample, line, 0, word, strlen(word));
        break;
    }
}

static void fail(const struct sample *sample, const char *what)
{
    failed++;
    printf("FAILED: %s:\n%.*s\n", what, (int)sample->len, sample->at);
}

static void check_errors(const struct sample *sample, const struct assembly *assembly)
{
    size_t lines = 1, before = 0;
    for (size_t i = 0; i < sample->len; i++) {
        lines += sample->at[i] == '\n';
    }
    for (size_t i = 0; i < assembly->error_count && i < ASM_ERRORS_KEPT; i++) {
        const struct asm_error *error = &assembly->errors[i];
        if (error->line < before || error->line > lines || error->column < 1 || error->column > sample->len + 1 ||
            error->sentence.len == 0) {
            fail(sample, "an error out of place");
        }
        before = error->line;
    }
}

static void check_sheet(const struct sample *sample, const struct assembly *assembly)
{
    uint32_t counts[MOONBLEAT_COUNTS], answer[MOONBLEAT_ANSWER];
    const struct bytes *sheet = &assembly->sheet;
    const struct refused read = {.sheet = sheet->at, .sheet_len = sheet->len, .answer = answer};
    accepted++;
    if (moonbleat_read(sheet->at, sheet->len, counts, answer) == 0) {
        read_sheets[edition_of(sheet->at, sheet->len)]++;
    } else if (!assembly->allows_refused) {
        fail(sample, "a text without errors that is not read");
    }
    if (!comes_back(&read)) {
        fail(sample, "a sheet whose text gives other bytes");
    }
}

static void try_sample(const struct sample *sample)
{
    static struct assembly assembly;
    /* A copy of the exact length, so that a sanitizer sees what is read past it. */
    char *text = malloc(sample->len + (sample->len == 0));
    if (text == NULL) {
        return;
    }
    memcpy(text, sample->at, sample->len);
    if (assemble(text, sample->len, &assembly)) {
        check_sheet(sample, &assembly);
    }
    check_errors(sample, &assembly);
    free_assembly(&assembly);
    free(text);
}

int main(int argc, char **argv)
{
    static struct sample seeds[SEEDS_MAX];
    size_t seed_count = 0, count = argc > 2 ? strtoul(argv[1], NULL, 10) : 0;
    for (int i = 2; i < argc && seed_count < SEEDS_MAX; i++) {
        struct bytes file;
        if (!read_file(argv[i], TEXT_MAX / 2, &file)) {
            return 1;
        }
        memcpy(seeds[seed_count].at, file.at, file.len);
        seeds[seed_count++].len = file.len;
        free(file.at);
    }
    for (size_t i = 0; i < count && seed_count > 0; i++) {
        struct sample sample = seeds[below(seed_count)];
        for (size_t damages = below(DAMAGES_MAX); damages > 0; damages--) {
            damage(&sample, &seeds[below(seed_count)]);
        }
        try_sample(&sample);
    }
    printf("texts: %zu, of which %zu give a sheet", count, accepted);
    bool met = accepted < count && print_editions(read_sheets);
    printf("; %zu failed\n", failed);
    return failed != 0 || !met;
}
