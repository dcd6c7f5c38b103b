/*
 * The assembler: line by line, over the tables of fields.h. A field's numbers are judged where they
 * stand in the text; when all lines are taken, each field is judged in its place in the sheet. So
 * every error of every line is found.
 */
#include "asm.h"

#include <stdio.h>
#include <stdlib.h>
#include <string.h>

#include "asm_line.h"
#include "asm_numbers.h"
#include "fields.h"
#include "judge.h"
#include "moonbleat.h"
#include "names.h"
#include "numbers.h"

/* Words that begin lines which are no fields. */
#define BYTES_WORD "bytes"
#define ALLOW_WORD "allow"

struct assembler {
    struct assembly *assembly;
    struct line line;
    struct reading reading;        /* the fields that the text has named so far */
    bool has_bytes;                /* a `bytes` line came, whose fields are not counted */
    bool full;                     /* the sheet is as long as any may be */
    bool unknown;                  /* the last field's word is none: its further lines are passed over */
    const struct field_form *form; /* the field that is open; NULL: none */
    struct part parts[PARTS_MAX];
    size_t origin_room;
};

/* -- Bytes ------------------------------------------------------------------------------------ */

static void put_bytes(struct assembler *assembler, const uint8_t *bytes, size_t len)
{
    struct bytes *sheet = &assembler->assembly->sheet;
    if (len <= SHEET_LIMIT - sheet->len) {
        memcpy(sheet->at + sheet->len, bytes, len);
        sheet->len += len;
    } else if (!assembler->full) {
        struct text sentence = {.len = 0};
        add_text(&sentence, "the sheet is longer than %zu bytes", SHEET_LIMIT);
        report(&assembler->line, 1, &sentence);
        assembler->full = true;
    }
}

/* Says that the line writes the bytes that follow. */
static bool add_origin(struct assembler *assembler, size_t column)
{
    struct assembly *assembly = assembler->assembly;
    if (assembly->origin_count == assembler->origin_room) {
        size_t room = 2 * assembler->origin_room + 64;
        struct asm_origin *origins = realloc(assembly->origins, room * sizeof *origins);
        if (origins == NULL) {
            return false;
        }
        assembly->origins = origins;
        assembler->origin_room = room;
    }
    struct asm_origin origin = {assembly->sheet.len, assembler->line.number, column, false};
    assembly->origins[assembly->origin_count++] = origin;
    return true;
}

/* The line that opened the last field. */
static struct asm_origin *last_origin(const struct assembler *assembler)
{
    return &assembler->assembly->origins[assembler->assembly->origin_count - 1];
}

/* Reports what is wrong with the field of a line, unless an error of it was reported. */
static void report_field(struct assembler *assembler, const struct asm_origin *origin, const struct text *sentence)
{
    if (!origin->faulty) {
        add_error(assembler->assembly, origin->line, origin->column, sentence);
    }
}

/* -- Fields ----------------------------------------------------------------------------------- */

/* What was read before the open field, if the text alone tells. */
static const struct reading *known_reading(const struct assembler *assembler)
{
    return assembler->has_bytes ? NULL : &assembler->reading;
}

/* Layouts and views are called by their number, which the text must have right. */
static void take_label(struct assembler *assembler, const struct field_form *form)
{
    const struct rank_form *rank = &rank_forms[form->rank];
    if (rank->label == '\0') {
        return;
    }
    struct text name = {.len = 0}, sentence = {.len = 0};
    add_text(&name, "%c%u", rank->label, assembler->reading.counts[form->rank]);
    add_text(&sentence, "expected '%s', this %s's name", name.at, rank->name);
    struct token token = peek(&assembler->line);
    bool is_label = token.len > 1 && token.at[0] == rank->label && token.at[1] >= '0' && token.at[1] <= '9';
    if (!is_label || (!assembler->has_bytes && !is_word(token, name.at))) {
        report_expected(&assembler->line, sentence.at, token);
    }
    if (is_label) {
        take(&assembler->line);
    }
}

/* Writes the open field's head and parts. */
static void write_field(struct assembler *assembler)
{
    const struct field_form *form = assembler->form;
    size_t length = 0;
    for (size_t i = 0; i < form->part_count; i++) {
        length += assembler->parts[i].len;
    }
    const uint8_t head[HEAD_BYTES] = {form->tag, (uint8_t)length, (uint8_t)(length >> 8)};
    put_bytes(assembler, head, sizeof head);
    for (size_t i = 0; i < form->part_count; i++) {
        put_bytes(assembler, assembler->parts[i].bytes, assembler->parts[i].len);
    }
}

/* How many dimensions the open field has, by its lines. */
static unsigned dimension_count(const struct assembler *assembler)
{
    for (size_t i = 0; i < assembler->form->part_count; i++) {
        if (assembler->form->parts[i].repeat == EACH_DIMENSION) {
            return assembler->parts[i].times;
        }
    }
    return 0;
}

/* What is wrong with how often a part of the open field came; an empty text if nothing is. */
static struct text judge_times(const struct assembler *assembler, size_t index)
{
    struct text sentence = {.len = 0};
    const struct field_form *form = assembler->form;
    unsigned dimensions = dimension_count(assembler), times = assembler->parts[index].times;
    enum repeat repeat = form->parts[index].repeat;
    if (repeat == EACH_DIMENSION && times == 0 && !assembler->assembly->allows_refused) {
        add_text(&sentence, "the %s has no dimensions", form->name);
    } else if (repeat == EACH_SIZED_DIMENSION && times > 0 && times != dimensions) {
        add_text(&sentence, "the %s permutes %u dimensions and has %u of its own", form->name, dimensions, times);
    }
    return sentence;
}

/* A part that may lack as a whole gets its numbers; dimensions must be as many as there are. */
static void complete_part(struct assembler *assembler, size_t index)
{
    const struct part_form *form = &assembler->form->parts[index];
    struct part *part = &assembler->parts[index];
    if (form->repeat == ONCE && part->times == 0) {
        for (size_t i = 0; i < form->count; i++) {
            put_number(part, form->numbers[i].lacking, form->numbers[i].width);
        }
    }
    struct text sentence = judge_times(assembler, index);
    if (sentence.len > 0) {
        report_field(assembler, last_origin(assembler), &sentence);
        last_origin(assembler)->faulty = true;
    }
}

/* The numbers that follow from the field's lines. */
static void set_computed(struct assembler *assembler)
{
    const struct part_form *head = &assembler->form->parts[0];
    bool sized = false;
    for (size_t i = 0; i < assembler->form->part_count; i++) {
        sized |= assembler->form->parts[i].repeat == EACH_SIZED_DIMENSION && assembler->parts[i].times > 0;
    }
    size_t at = 0;
    for (size_t i = 0; i < head->count; i++) {
        if (head->numbers[i].sort == COUNT) {
            assembler->parts[0].bytes[at] = (uint8_t)dimension_count(assembler);
        } else if (head->numbers[i].sort == SIZED) {
            assembler->parts[0].bytes[at] = sized;
        }
        at += head->numbers[i].width;
    }
}

static void close_field(struct assembler *assembler)
{
    if (assembler->form != NULL) {
        for (size_t i = 0; i < assembler->form->part_count; i++) {
            complete_part(assembler, i);
        }
        set_computed(assembler);
        write_field(assembler);
        note_field(&assembler->reading, &(struct field){.form = assembler->form});
        assembler->form = NULL;
    }
}

/* A field of a later edition than the sheet's is told where its word stands, whatever else is wrong with it. */
static void judge_word(struct assembler *assembler, const struct field_form *form, struct token word)
{
    const struct bytes *sheet = &assembler->assembly->sheet;
    unsigned edition = edition_of(sheet->at, sheet->len);
    if (!assembler->assembly->allows_refused && !is_known_field(edition, form)) {
        struct text sentence = {.len = 0};
        add_later_edition(&sentence, form, edition);
        report(&assembler->line, word.column, &sentence);
    }
}

/* Opens a field and takes what stands on its first line. */
static void take_field(struct assembler *assembler, const struct field_form *form, struct token word)
{
    assembler->form = form;
    judge_word(assembler, form, word);
    memset(assembler->parts, 0, sizeof assembler->parts);
    take_label(assembler, form);
    for (size_t i = 0; i < form->part_count && form->parts[i].word == NULL; i++) {
        if (form->parts[i].repeat == ONCE) {
            take_part(&assembler->line, known_reading(assembler), &form->parts[i], &assembler->parts[i]);
        } else {
            take_list(&assembler->line, &form->parts[i], &assembler->parts[i]);
        }
    }
}

/* Takes a further line of the open field. */
static void take_further_line(struct assembler *assembler, size_t index, struct token word)
{
    const struct part_form *form = &assembler->form->parts[index];
    struct part *part = &assembler->parts[index];
    unsigned most = form->repeat == ONCE ? 1 : DIMENSIONS_MAX;
    if (part->times == most) {
        struct text sentence = {.len = 0};
        add_text(&sentence, "a %s has at most %u '%s'", assembler->form->name, most, form->word);
        report(&assembler->line, word.column, &sentence);
        assembler->line.rest = assembler->line.end;
        return;
    }
    take_part(&assembler->line, known_reading(assembler), form, part);
}

/* -- Lines ------------------------------------------------------------------------------------ */

static void expect_line_end(struct line *line)
{
    struct token token = peek(line);
    if (token.len > 0) {
        struct nearest nearest = nearest_to(token.at, token.len);
        if (line->part != NULL) {
            consider_keywords(&nearest, line->part, 0);
        }
        report_misspelt(line, "expected the end of the line", token, &nearest);
    }
}

static void take_allow(struct assembler *assembler)
{
    struct token token = take(&assembler->line);
    if (!is_word(token, "refused")) {
        report_expected(&assembler->line, "expected 'refused'", token);
    } else if (assembler->assembly->origin_count > 0) {
        struct text sentence = {.len = 0};
        add_text(&sentence, "'allow refused' must stand before the first field");
        report(&assembler->line, token.column, &sentence);
    } else {
        assembler->assembly->allows_refused = true;
    }
}

/* Takes hex digits, two a byte. */
static void take_bytes(struct assembler *assembler)
{
    assembler->has_bytes = true;
    struct line *line = &assembler->line;
    for (struct token token = take(line); token.len > 0; token = take(line)) {
        for (size_t i = 0; i < token.len; i += 2) {
            uint8_t byte;
            if (i + 2 > token.len || !parse_hex_byte(token.at + i, &byte)) {
                report_expected(line, "expected pairs of hex digits", token);
                break;
            }
            put_bytes(assembler, &byte, 1);
        }
    }
}

static const struct field_form *find_field(struct token word)
{
    for (size_t i = 0; i < field_form_count; i++) {
        if (is_word(word, field_forms[i].name)) {
            return &field_forms[i];
        }
    }
    return NULL;
}

/* The part whose further lines of the form begin with a word; the part count if there is none. */
static size_t find_part(const struct field_form *form, struct token word)
{
    size_t i = 0;
    while (i < form->part_count && (form->parts[i].word == NULL || !is_word(word, form->parts[i].word))) {
        i++;
    }
    return i;
}

/* Whether a word begins a further line of some field. */
static bool is_part_word(struct token word)
{
    for (size_t i = 0; i < field_form_count; i++) {
        if (find_part(&field_forms[i], word) < field_forms[i].part_count) {
            return true;
        }
    }
    return false;
}

/* Which first word of a line may be meant. */
static struct nearest nearest_first_word(struct token word)
{
    struct nearest nearest = nearest_to(word.at, word.len);
    for (size_t i = 0; i < field_form_count; i++) {
        consider(&nearest, field_forms[i].name);
        for (size_t j = 0; j < field_forms[i].part_count; j++) {
            if (field_forms[i].parts[j].word != NULL) {
                consider(&nearest, field_forms[i].parts[j].word);
            }
        }
    }
    consider(&nearest, BYTES_WORD);
    consider(&nearest, ALLOW_WORD);
    return nearest;
}

/* A line that begins no field: a further one of the open field, or nothing known. */
static void take_other_line(struct assembler *assembler, struct token word)
{
    size_t index = assembler->form == NULL ? 0 : find_part(assembler->form, word);
    if (assembler->form != NULL && index < assembler->form->part_count) {
        take_further_line(assembler, index, word);
        expect_line_end(&assembler->line);
        return;
    }
    bool is_part = is_part_word(word);
    if (!is_part || !assembler->unknown) {
        struct text sentence = {.len = 0};
        add_text(&sentence, "'");
        add_token(&sentence, word);
        add_text(&sentence, is_part ? "' does not belong to the field before it" : "' begins no field");
        if (!is_part) {
            struct nearest nearest = nearest_first_word(word);
            add_nearest(&sentence, &nearest, "'");
        }
        add_error(assembler->assembly, assembler->line.number, word.column, &sentence);
    }
    if (!is_part) {
        close_field(assembler);
        assembler->unknown = true;
    }
}

/* Takes a line; false if there is not enough room to work in. */
static bool take_line(struct assembler *assembler)
{
    struct token word = take(&assembler->line);
    if (word.len == 0) {
        return true;
    }
    const struct field_form *form = find_field(word);
    bool is_bytes = is_word(word, BYTES_WORD);
    if (is_word(word, ALLOW_WORD)) {
        close_field(assembler);
        take_allow(assembler);
        expect_line_end(&assembler->line);
    } else if (form == NULL && !is_bytes) {
        take_other_line(assembler, word);
    } else {
        close_field(assembler);
        assembler->unknown = false;
        if (!add_origin(assembler, word.column)) {
            return false;
        }
        if (is_bytes) {
            take_bytes(assembler);
        } else {
            take_field(assembler, form, word);
        }
        expect_line_end(&assembler->line);
    }
    return true;
}

static bool take_lines(struct assembler *assembler, const char *text, size_t len)
{
    const char *end = text + len;
    bool done = true;
    while (done && text < end) {
        const char *newline = memchr(text, '\n', (size_t)(end - text));
        const char *line_end = newline == NULL ? end : newline;
        const char *comment = memchr(text, '#', (size_t)(line_end - text));
        assembler->line = (struct line){assembler->assembly, text, text, comment == NULL ? line_end : comment,
                                        assembler->line.number + 1, NULL, false, false};
        done = take_line(assembler);
        if (assembler->line.faulty && assembler->assembly->origin_count > 0) {
            last_origin(assembler)->faulty = true;
        }
        text = newline == NULL ? end : newline + 1;
    }
    return done;
}

/* -- The fields in their places --------------------------------------------------------------- */

/* Judges each field behind those before it, as the library reads them. */
static void judge_sheet(struct assembler *assembler)
{
    const struct assembly *assembly = assembler->assembly;
    const struct bytes *sheet = &assembly->sheet;
    struct reading reading = {.rank = EDITION_RANK};
    struct field field;
    size_t at = 0, origin = 0;
    for (; field_at(sheet->at, sheet->len, at, &field); at = field_end(&field)) {
        struct text sentence;
        while (origin + 1 < assembly->origin_count && assembly->origins[origin + 1].at <= at) {
            origin++;
        }
        if (judge_field(&reading, &field, &sentence) != 0) {
            report_field(assembler, &assembly->origins[origin], &sentence);
        }
        if (field.form != NULL) {
            note_field(&reading, &field);
        }
    }
    struct text sentence = {.len = 0};
    if (at < sheet->len) {
        add_text(&sentence, HEAD_CUT_SENTENCE, "sheet", sheet->len - at);
        report_field(assembler, last_origin(assembler), &sentence);
    } else if (reading.counts[EDITION_RANK] == 0) {
        const struct asm_origin end = {at, assembly->last_line, 1, false};
        add_text(&sentence, NO_EDITION_SENTENCE);
        report_field(assembler, &end, &sentence);
    }
}

bool assemble(const char *text, size_t len, struct assembly *assembly)
{
    memset(assembly, 0, sizeof *assembly);
    struct assembler assembler = {.assembly = assembly};
    size_t mark = strlen(BYTE_ORDER_MARK);
    if (len >= mark && memcmp(text, BYTE_ORDER_MARK, mark) == 0) {
        text += mark;
        len -= mark;
    }
    assembly->sheet.at = malloc(SHEET_LIMIT);
    bool done = assembly->sheet.at != NULL && take_lines(&assembler, text, len);
    assembly->last_line = assembler.line.number == 0 ? 1 : assembler.line.number;
    if (done) {
        close_field(&assembler);
        if (!assembly->allows_refused) {
            judge_sheet(&assembler);
        }
    } else {
        struct text sentence = {.len = 0};
        add_text(&sentence, "there is not enough room to work in");
        add_error(assembly, assembler.line.number, 1, &sentence);
    }
    return assembly->error_count == 0;
}

size_t asm_line_of(const struct assembly *assembly, size_t byte)
{
    size_t line = assembly->last_line;
    for (size_t i = 0; byte < assembly->sheet.len && i < assembly->origin_count && assembly->origins[i].at <= byte;
         i++) {
        line = assembly->origins[i].line;
    }
    return line;
}

void print_asm_errors(const char *name, const struct assembly *assembly)
{
    for (size_t i = 0; i < assembly->error_count && i < ASM_ERRORS_KEPT; i++) {
        const struct asm_error *error = &assembly->errors[i];
        put_word(stderr, name);
        fprintf(stderr, ":%zu:%zu: %s\n", error->line, error->column, error->sentence.at);
    }
    if (assembly->error_count > ASM_ERRORS_KEPT) {
        put_word(stderr, name);
        fprintf(stderr, ": %zu errors, the first %d are printed\n", assembly->error_count, ASM_ERRORS_KEPT);
    }
}

void free_assembly(struct assembly *assembly)
{
    free(assembly->sheet.at);
    free(assembly->origins);
    assembly->sheet = (struct bytes){NULL, 0};
    assembly->origins = NULL;
}
