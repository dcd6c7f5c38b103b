#include "sheet_text.h"

#include <inttypes.h>
#include <stdbool.h>

#include "fields.h"
#include "judge.h"
#include "kinds.h"
#include "moonbleat.h"

/* Whether a number is the object of a load that starts from zeros, which its text says. */
static bool says_zeros(const struct values *values, const struct value *value)
{
    return value->form->sort == OBJECT && start_of(values) == FROM_ZEROS;
}

/* Prints a number as the text form has it, without its keyword. */
static void print_number(FILE *file, const struct values *values, const struct value *value)
{
    const struct number_form *form = value->form;
    if (says_zeros(values, value)) {
        fputs(" " ZEROS_WORD, file);
    } else if (form->name_of != NULL) {
        fprintf(file, " %s", form->name_of(value->raw));
    } else if (form->sort == COLUMNS) {
        fprintf(file, "x%" PRIu32, value->raw);
    } else if (form->sort == VALUE) {
        fprintf(file, " %" PRId64, element_value(value_of_sort(values, KIND), value->raw));
    } else if (prefix_of(form->sort) != '\0') {
        fprintf(file, " %c%" PRIu32, prefix_of(form->sort), value->raw);
    } else {
        fprintf(file, " %" PRId64, number_of(form, value->raw));
    }
}

/* Whether a number is left out: asm computes it, or there is none. */
static bool is_left_out(const struct values *values, const struct value *value)
{
    bool none = is_none(value->form, value->raw) && !says_zeros(values, value);
    return none || is_computed(value->form->sort) || lacks_bias(value);
}

static void print_field(FILE *file, const struct field *field, unsigned number)
{
    const struct rank_form *rank = &rank_forms[field->form->rank];
    fputs(field->form->name, file);
    if (rank->label != '\0') {
        fprintf(file, " %c%u", rank->label, number);
    }
    struct values values;
    field_values(field, &values);
    for (size_t i = 0; i < values.count; i++) {
        const struct value *value = &values.at[i];
        const struct part_form *part = &field->form->parts[value->part];
        bool first = value->form == part->numbers;
        if (part->word != NULL && first) {
            fprintf(file, "\n  %s", part->word);
        }
        if (is_left_out(&values, value)) {
            continue;
        }
        bool is_listed = value->form->sort == PERMUTED && value->dimension > 0;
        if (value->form->keyword != NULL && !is_listed) {
            fprintf(file, " %s", value->form->keyword);
        }
        print_number(file, &values, value);
    }
    fputc('\n', file);
}

static void print_bytes(FILE *file, const uint8_t *bytes, size_t len)
{
    enum { ON_A_LINE = 32 };
    for (size_t i = 0; i < len; i++) {
        fprintf(file, "%s %02X", i % ON_A_LINE == 0 ? "bytes" : "", (unsigned)bytes[i]);
        if (i + 1 == len || (i + 1) % ON_A_LINE == 0) {
            fputc('\n', file);
        }
    }
}

size_t readable_bytes(const struct refused *sheet)
{
    bool is_read = sheet->answer[MOONBLEAT_NUMBER] == 0;
    return is_read ? sheet->sheet_len : sheet->answer[MOONBLEAT_PLACE];
}

void print_sheet_text(FILE *file, const struct refused *sheet)
{
    size_t readable = readable_bytes(sheet);
    struct reading reading = {.rank = EDITION_RANK};
    struct field field;
    if (sheet->answer[MOONBLEAT_NUMBER] != 0) {
        fprintf(file, "allow refused # %s\n", refusal_line(sheet).at);
    }
    for (size_t at = 0; field_at(sheet->sheet, readable, at, &field); at = field_end(&field)) {
        print_field(file, &field, reading.counts[field.form->rank]);
        note_field(&reading, &field);
    }
    print_bytes(file, sheet->sheet + readable, sheet->sheet_len - readable);
}
