#include "show.h"

#include <inttypes.h>
#include <stdbool.h>
#include <stdio.h>
#include <string.h>

#include "fields.h"
#include "judge.h"
#include "kinds.h"
#include "moonbleat.h"

static void show_object(FILE *file, const struct values *load)
{
    switch (start_of(load)) {
    case FROM_OBJECT:
        fprintf(file, "object register %" PRIu32, value_of_sort(load, OBJECT));
        break;
    case FROM_REGISTER:
        fputs("its own object", file);
        break;
    case FROM_ZEROS:
        fputs("from zeros", file);
        break;
    }
}

static void show_number(FILE *file, const struct values *values, const struct value *value)
{
    const struct number_form *form = value->form;
    const char *name = form->name_of == NULL ? NULL : form->name_of(value->raw);
    if (name != NULL) {
        fputs(name, file);
    } else if (form->sort == COUNT) {
        fprintf(file, "%" PRIu32 " dimension%s", value->raw, value->raw == 1 ? "" : "s");
    } else if (form->sort == SIZED && value->raw <= 1) {
        fputs(value->raw == 1 ? "of its own" : "of the layout's spans", file);
    } else if (form->sort == OBJECT) {
        show_object(file, values);
    } else if (form->sort == VIEW) {
        is_none(form, value->raw) ? fputs("no view", file) : fprintf(file, "view %" PRIu32, value->raw);
    } else if (form->sort == BIAS) {
        lacks_bias(value) ? fputs("no bias", file) : fprintf(file, "add the bias at offset %" PRIu32, value->raw);
    } else if (form->sort == VALUE) {
        fprintf(file, "%" PRId64, element_value(value_of_sort(values, KIND), value->raw));
    } else {
        fprintf(file, "%" PRId64, number_of(form, value->raw));
    }
}

/* The number of a name among those of one part; NULL if the field ends before it. */
static const struct value *find_value(const struct values *values, size_t first, size_t count, const char *name,
                                      size_t len)
{
    for (size_t i = first; i < values->count && i < first + count; i++) {
        const char *other = values->at[i].form->name;
        if (strlen(other) == len && strncmp(other, name, len) == 0) {
            return &values->at[i];
        }
    }
    return NULL;
}

/* Prints the words of a part whose numbers begin at values->at[first]. */
static void show_part(FILE *file, const struct part_form *part, const struct values *values, size_t first)
{
    for (const char *at = part->words; *at != '\0'; at++) {
        if (*at != '{') {
            fputc(*at, file);
            continue;
        }
        size_t len = strcspn(at + 1, "}");
        const struct value *value = find_value(values, first, part->count, at + 1, len);
        if (value == NULL) {
            fputc('?', file);
        } else {
            show_number(file, values, value);
        }
        at += len + 1;
    }
}

static void show_bytes(FILE *file, const uint8_t *bytes, size_t len)
{
    enum { SHOWN = 16 };
    for (size_t i = 0; i < len && i < SHOWN; i++) {
        fprintf(file, " %02X", (unsigned)bytes[i]);
    }
    fputs(len > SHOWN ? " ..\n" : "\n", file);
}

void show_field(FILE *file, const struct field *field, unsigned number)
{
    struct values values;
    if (field->form == NULL) {
        fprintf(file, "field 0x%02X, %zu bytes:", (unsigned)field->tag, field->length);
        show_bytes(file, field->content, field->content_len);
        return;
    }
    field_values(field, &values);
    if (field->form->rank != EDITION_RANK) {
        fprintf(file, "%s %u: ", rank_forms[field->form->rank].name, number);
    }
    show_part(file, &field->form->parts[0], &values, 0);
    for (size_t i = field->form->parts[0].count; i < values.count; i++) {
        const struct part_form *part = &field->form->parts[values.at[i].part];
        if (values.at[i].form != part->numbers) {
            continue;
        }
        if (part->word != NULL && part->repeat != ONCE) {
            fprintf(file, "\n  dimension %u: ", values.at[i].dimension);
        } else if (part->word != NULL) {
            fputs("\n  ", file);
        }
        show_part(file, part, &values, i);
    }
    fputc('\n', file);
}

/* How many fields of a field's rank came before it. */
static unsigned number_in(const struct reading *reading, const struct field *field)
{
    return field->form == NULL ? 0 : reading->counts[field->form->rank];
}

/* Prints fields from a byte on to one that is at `end` or makes no sense; gives its byte. */
static size_t show_fields(FILE *file, const uint8_t *sheet, size_t sheet_len, size_t at, size_t end, struct reading *reading)
{
    struct field field;
    while (at < end && field_at(sheet, sheet_len, at, &field) && field.form != NULL) {
        show_field(file, &field, number_in(reading, &field));
        note_field(reading, &field);
        at = field_end(&field);
    }
    return at;
}

void show_sheet(FILE *file, const uint8_t *sheet, size_t sheet_len)
{
    struct reading reading = {.rank = EDITION_RANK};
    show_fields(file, sheet, sheet_len, 0, sheet_len, &reading);
}

void show_refused_sheet(FILE *file, const uint8_t *sheet, size_t sheet_len, size_t refused, const char *sentence)
{
    struct reading reading = {.rank = EDITION_RANK};
    struct field field;
    size_t at = show_fields(file, sheet, sheet_len, 0, refused, &reading);
    if (field_at(sheet, sheet_len, at, &field)) {
        show_field(file, &field, number_in(&reading, &field));
        if (field.form != NULL) {
            note_field(&reading, &field);
        }
        at = field_end(&field);
    } else if (at < sheet_len) {
        fprintf(file, "%zu bytes:", sheet_len - at);
        show_bytes(file, sheet + at, sheet_len - at);
        at = sheet_len;
    }
    fprintf(file, "^ %s\n", sentence);
    at = show_fields(file, sheet, sheet_len, at, sheet_len, &reading);
    if (at < sheet_len) {
        fprintf(file, "%zu more bytes\n", sheet_len - at);
    }
}
