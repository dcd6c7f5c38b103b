#include "asm_numbers.h"

#include <string.h>

#include "kinds.h"
#include "moonbleat.h"
#include "numbers.h"

static void write_number(uint8_t *bytes, uint32_t number, size_t width)
{
    for (size_t i = 0; i < width; i++) {
        bytes[i] = (uint8_t)(number >> 8 * i);
    }
}

void put_number(struct part *part, uint32_t number, size_t width)
{
    write_number(part->bytes + part->len, number, width);
    part->len += width;
}

/* -- Words into numbers ----------------------------------------------------------------------- */

static bool parse_integer(struct token token, int64_t *number)
{
    bool negative = token.len > 0 && token.at[0] == '-';
    uint64_t size;
    if (!parse_number(token.at + negative, token.len - negative, &size) || size > INT64_MAX) {
        return false;
    }
    *number = negative ? -(int64_t)size : (int64_t)size;
    return true;
}

static bool parse_name(const struct number_form *form, struct token token, int64_t *number)
{
    for (int64_t i = form->low; i <= form->high; i++) {
        const char *name = form->name_of((uint32_t)i);
        if (name != NULL && is_word(token, name)) {
            *number = i;
            return true;
        }
    }
    return false;
}

/* Whether a word stands for zeros in place of an object. */
static bool is_zeros_word(const struct number_form *form, struct token token)
{
    return form->sort == OBJECT && is_word(token, ZEROS_WORD);
}

/* Whether a word is written as a number of this form. */
static bool parse_word(const struct number_form *form, struct token token, int64_t *number)
{
    if (is_zeros_word(form, token) || (may_be_none(form) && is_word(token, NONE_WORD))) {
        *number = MOONBLEAT_NONE;
        return true;
    }
    if (form->name_of != NULL && parse_name(form, token, number)) {
        return true;
    }
    char prefix = prefix_of(form->sort);
    if (prefix == '\0') {
        return parse_integer(token, number);
    }
    if (token.len == 0 || token.at[0] != prefix) {
        return false;
    }
    return parse_integer((struct token){token.at + 1, token.len - 1, token.column + 1}, number);
}

/* Adds ": row or column", all names that a form's numbers have. */
static void add_names(struct text *text, const struct number_form *form)
{
    const char *before = ":";
    for (int64_t i = form->low; i <= form->high; i++) {
        const char *name = form->name_of((uint32_t)i);
        if (name != NULL) {
            add_text(text, "%s %s", before, name);
            before = " or";
        }
    }
}

/* Which of the words that may stand in a number's place may be meant. */
static struct nearest nearest_name(const struct number_form *form, struct token token)
{
    struct nearest nearest = nearest_to(token.at, token.len);
    for (int64_t i = form->low; form->name_of != NULL && i <= form->high; i++) {
        const char *name = form->name_of((uint32_t)i);
        if (name != NULL) {
            consider(&nearest, name);
        }
    }
    if (may_be_none(form)) {
        consider(&nearest, NONE_WORD);
    }
    if (form->sort == OBJECT) {
        consider(&nearest, ZEROS_WORD);
    }
    return nearest;
}

/* What may stand in a number's place, in words. */
static struct text expected(const struct number_form *form)
{
    struct text text = {.len = 0};
    add_text(&text, "expected the %s", form->name);
    if (form->name_of != NULL) {
        add_names(&text, form);
    } else if (prefix_of(form->sort) != '\0') {
        add_text(&text, " as %c0", prefix_of(form->sort));
    } else {
        add_text(&text, ", a number");
    }
    return text;
}

/* -- Ranges ----------------------------------------------------------------------------------- */

/* What bounds a number besides its form. */
struct bounds {
    const struct reading *before; /* NULL: not known */
    bool allows_refused;
    uint32_t kind; /* of the field's elements */
};

/* The numbers that a width has. */
static struct range width_range(const struct number_form *form)
{
    int64_t size = INT64_C(1) << 8 * form->width;
    return form->sort == SIGNED ? (struct range){-size / 2, size / 2 - 1, NULL} : (struct range){0, size - 1, NULL};
}

/* The range of a number where it stands in the text. An element's value may be written by its sign
 * or as its bits. */
static struct range text_range(const struct number_form *form, const struct bounds *bounds)
{
    bool names_part = form->sort == LAYOUT || form->sort == VIEW;
    struct range range = {form->low, form->high, NULL};
    if (bounds->allows_refused) {
        range = width_range(form);
    } else if (!names_part || bounds->before != NULL) {
        range = range_of(form, bounds->before, bounds->kind);
    }
    if (form->sort == VALUE) {
        range.low = element_low(bounds->kind);
    }
    return range;
}

/* Judges a number that was read at a column; gives the bits that it is written with. */
static uint32_t judged(struct line *line, const struct number_form *form, const struct bounds *bounds, int64_t number,
                       size_t column)
{
    struct range range = text_range(form, bounds);
    if (!is_none(form, number) && !is_within(number, range)) {
        struct text sentence = {.len = 0};
        add_out_of_range(&sentence, form->name, number, range);
        report(line, column, &sentence);
    }
    unsigned bits = form->sort == VALUE && number < 0 ? kind_bits(bounds->kind) : 8u * form->width;
    return (uint32_t)((uint64_t)number & ((UINT64_C(1) << bits) - 1));
}

/* -- Numbers of a line ------------------------------------------------------------------------ */

/* Whether the numbers of a part stand in any order, each behind its keyword: those of a line of their own, as a
 * dimension has it. */
static bool is_any_order(const struct part_form *part)
{
    return part->word != NULL && part->repeat != ONCE;
}

/* The number of a part, from one on, whose keyword a word is; the part's count if there is none. */
static size_t find_keyword(const struct part_form *part, size_t from, struct token token)
{
    size_t i = from;
    while (i < part->count && (part->numbers[i].keyword == NULL || !is_word(token, part->numbers[i].keyword))) {
        i++;
    }
    return i;
}

void consider_keywords(struct nearest *nearest, const struct part_form *part, size_t from)
{
    for (size_t i = from; i < part->count; i++) {
        if (part->numbers[i].keyword != NULL) {
            consider(nearest, part->numbers[i].keyword);
        }
    }
}

/* Whether a word, in place of a number, stands before another one of its part. */
static bool is_other_keyword(const struct part_form *part, const struct number_form *form, struct token token)
{
    size_t from = is_any_order(part) ? 0 : (size_t)(form - part->numbers) + 1;
    return find_keyword(part, from, token) < part->count;
}

/* The word for zeros is judged by the sheet so far, since its number has another meaning in an older
 * edition; before an edition came, every one may be meant. */
static void judge_zeros(struct line *line, size_t column)
{
    const struct bytes *sheet = &line->assembly->sheet;
    unsigned edition = edition_of(sheet->at, sheet->len);
    if (edition > 0 && edition < ZEROS_EDITION) {
        struct text sentence = {.len = 0};
        add_text(&sentence,
                 "object zeros comes with edition %d, and the sheet has edition %u, in which a load without an object "
                 "keeps what its register holds",
                 ZEROS_EDITION, edition);
        report(line, column, &sentence);
    }
}

/* Takes the next word as a number; 0 where it is none. */
static uint32_t take_number(struct line *line, const struct part_form *part, const struct number_form *form,
                            const struct bounds *bounds)
{
    struct token token = peek(line);
    int64_t number = 0;
    if (!is_other_keyword(part, form, token)) {
        take(line);
    }
    if (!parse_word(form, token, &number)) {
        struct nearest nearest = nearest_name(form, token);
        report_misspelt(line, expected(form).at, token, &nearest);
        return 0;
    }
    if (is_zeros_word(form, token)) {
        judge_zeros(line, token.column);
    }
    return judged(line, form, bounds, number, token.column);
}

/* Takes rows and columns, written as 1x8 in decimal. */
static void take_shape(struct line *line, const struct number_form *rows, const struct number_form *columns,
                       const struct bounds *bounds, struct part *part)
{
    struct token token = take(line);
    struct token first = token, second = {token.at, 0, token.column};
    const char *cross = memchr(token.at, 'x', token.len);
    if (cross != NULL) {
        first.len = (size_t)(cross - token.at);
        second = (struct token){cross + 1, token.len - first.len - 1, token.column + first.len + 1};
    }
    int64_t row_count, column_count;
    if (!parse_integer(first, &row_count) || !parse_integer(second, &column_count)) {
        report_expected(line, "expected rows and columns as 1x8", token);
        row_count = column_count = 1;
    }
    put_number(part, judged(line, rows, bounds, row_count, first.column), rows->width);
    put_number(part, judged(line, columns, bounds, column_count, second.column), columns->width);
}

/* Reports that the keyword of a number must stand here, or one from `from` on. */
static void report_keyword(struct line *line, const struct part_form *part, const struct number_form *form, size_t from)
{
    struct token token = peek(line);
    struct nearest nearest = nearest_to(token.at, token.len);
    struct text sentence = {.len = 0};
    consider_keywords(&nearest, part, from);
    add_text(&sentence, "expected '%s' and a number", form->keyword);
    report_misspelt(line, sentence.at, token, &nearest);
}

/* Takes the word before a number; whether there is one. Where it is not, the line goes on at the
 * word further on, or else behind the word in its place, which may be misspelt. */
static bool take_keyword(struct line *line, const struct part_form *part, const struct number_form *form)
{
    if (is_word(peek(line), form->keyword)) {
        take(line);
        return true;
    }
    if (form->may_lack) {
        return false;
    }
    report_keyword(line, part, form, (size_t)(form - part->numbers));
    if (!skip_to(line, form->keyword)) {
        take(line);
    }
    return true;
}

/* Whether the next number is given; one without a word of its own may lack where its neighbour
 * does, and a view where no view stands. */
static bool is_given(struct line *line, const struct part_form *part, const struct number_form *form, bool neighbour)
{
    if (form->keyword != NULL) {
        return take_keyword(line, part, form);
    }
    if (form->sort == VIEW) {
        struct token token = peek(line);
        return token.len > 0 && (token.at[0] == prefix_of(VIEW) || is_word(token, NONE_WORD));
    }
    return !form->may_lack || neighbour;
}

/* -- Numbers in any order ---------------------------------------------------------------------- */

/* The numbers of a part that are written already, where they are, and which of them were given. */
struct named {
    const struct part_form *form;
    uint8_t *bytes;
    unsigned given;
};

static bool was_given(const struct named *named, size_t index)
{
    return (named->given & 1u << index) != 0;
}

static void take_named_number(struct line *line, struct named *named, size_t index, const struct bounds *bounds)
{
    uint8_t *bytes = named->bytes;
    for (size_t i = 0; i < index; i++) {
        bytes += named->form->numbers[i].width;
    }
    const struct number_form *form = &named->form->numbers[index];
    write_number(bytes, take_number(line, named->form, form, bounds), form->width);
    named->given |= 1u << index;
}

/* The first number that must be given and was not; the part's count if there is none. */
static size_t find_missing(const struct named *named)
{
    size_t i = 0;
    while (i < named->form->count && (named->form->numbers[i].may_lack || was_given(named, i))) {
        i++;
    }
    return i;
}

/* Takes what stands in place of a missing keyword: it may be misspelt, unless that one stands further on. */
static void take_misplaced(struct line *line, struct named *named, size_t missing, const struct bounds *bounds)
{
    struct line ahead = *line;
    report_keyword(line, named->form, &named->form->numbers[missing], 0);
    if (!skip_to(&ahead, named->form->numbers[missing].keyword)) {
        take(line);
        take_named_number(line, named, missing, bounds);
        return;
    }
    while (find_keyword(named->form, 0, peek(line)) == named->form->count) {
        take(line);
    }
}

/* Takes a keyword and its number, or reports what stands there in their place; false where nothing of the part
 * is left to take. */
static bool take_next(struct line *line, struct named *named, const struct bounds *bounds)
{
    struct token token = peek(line);
    size_t index = find_keyword(named->form, 0, token), missing = find_missing(named);
    if (index == named->form->count) {
        if (missing < named->form->count) {
            take_misplaced(line, named, missing, bounds);
        }
        return missing < named->form->count;
    }
    if (was_given(named, index)) {
        struct text sentence = {.len = 0};
        add_text(&sentence, "'%s' is given twice", named->form->numbers[index].keyword);
        report(line, token.column, &sentence);
    }
    take(line);
    take_named_number(line, named, index, bounds);
    return true;
}

static void take_in_any_order(struct line *line, const struct part_form *form, const struct bounds *bounds,
                              struct part *part)
{
    struct named named = {form, part->bytes + part->len, 0};
    for (size_t i = 0; i < form->count; i++) {
        put_number(part, form->numbers[i].lacking, form->numbers[i].width);
    }
    while (take_next(line, &named, bounds)) {
    }
    part->times++;
}

/* -- Parts ------------------------------------------------------------------------------------- */

void take_part(struct line *line, const struct reading *before, const struct part_form *form, struct part *part)
{
    struct bounds bounds = {before, line->assembly->allows_refused, 0};
    bool given = true;
    line->part = form;
    if (is_any_order(form)) {
        take_in_any_order(line, form, &bounds, part);
        return;
    }
    for (size_t i = 0; i < form->count; i++) {
        const struct number_form *number = &form->numbers[i];
        if (number->sort == ROWS) {
            take_shape(line, number, number + 1, &bounds, part);
            i++;
            continue;
        }
        uint32_t bits = number->lacking;
        if (number->sort == HAS_BIAS) {
            bits = is_word(peek(line), number[1].keyword);
        } else if (!is_computed(number->sort)) {
            given = is_given(line, form, number, given);
            bits = given ? take_number(line, form, number, &bounds) : bits;
        }
        bounds.kind = number->sort == KIND ? bits : bounds.kind;
        put_number(part, bits, number->width);
    }
    part->times++;
}

void take_list(struct line *line, const struct part_form *form, struct part *part)
{
    const struct bounds bounds = {NULL, line->assembly->allows_refused, 0};
    const struct number_form *number = &form->numbers[0];
    take_keyword(line, form, number);
    do {
        put_number(part, take_number(line, form, number, &bounds), number->width);
        part->times++;
    } while (peek(line).len > 0 && part->times < DIMENSIONS_MAX);
}
