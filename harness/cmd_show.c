#include <inttypes.h>
#include <stdio.h>
#include <stdlib.h>

#include "answers.h"
#include "command.h"
#include "fields.h"
#include "files.h"
#include "forms.h"
#include "moonbleat.h"
#include "names.h"
#include "sheet_file.h"
#include "sheet_text.h"
#include "show.h"
#include "show_files.h"
#include "traces.h"

/* What a load starts from, by name. */
static const char *const start_names[] = {
    [FROM_OBJECT] = "object", [FROM_REGISTER] = "register", [FROM_ZEROS] = "zeros"};

/* A number of the JSON object: a name where it has one, null for none; behind a load's object, what the
 * load starts from. */
static void json_value(struct json *json, const struct values *values, const struct value *value, const char *key)
{
    const struct number_form *form = value->form;
    if (form->name_of != NULL) {
        json_text(json, key, form->name_of(value->raw));
    } else if (is_none(form, value->raw) || lacks_bias(value)) {
        json_null(json, key);
    } else {
        json_number(json, key, number_of(form, value->raw));
    }
    if (form->sort == OBJECT) {
        json_text(json, "starts_from", start_names[start_of(values)]);
    }
}

/* A field's numbers; those of a repeated part are in an array, as objects if they are several. */
static void json_field(struct json *json, const struct field *field)
{
    struct values values;
    field_values(field, &values);
    json_open(json, NULL, '{');
    json_text(json, "field", field->form->name);
    json_number(json, "byte", (int64_t)field->at);
    for (size_t i = 0; i < values.count; i++) {
        const struct value *value = &values.at[i];
        const struct part_form *part = &field->form->parts[value->part];
        bool repeated = part->repeat != ONCE, several = part->count > 1;
        bool first = value->form == part->numbers, last = value->form == part->numbers + part->count - 1;
        if (repeated && first && value->dimension == 0) {
            json_open(json, part->plural, '[');
        }
        if (repeated && several && first) {
            json_open(json, NULL, '{');
        }
        json_value(json, &values, value, repeated && !several ? NULL : value->form->name);
        if (repeated && several && last) {
            json_close(json, '}');
        }
        if (repeated && last && value->dimension + 1 == value_of_sort(&values, COUNT)) {
            json_close(json, ']');
        }
    }
    json_close(json, '}');
}

static void show_json(const struct refused *read)
{
    struct json json = {false};
    struct field field;
    open_answer(&json, &show_command, read);
    json_text(&json, "form", form_name(FORM_SHEET));
    json_number(&json, "bytes", (int64_t)read->sheet_len);
    json_open(&json, "fields", '[');
    for (size_t at = 0; field_at(read->sheet, readable_bytes(read), at, &field); at = field_end(&field)) {
        json_field(&json, &field);
    }
    json_close(&json, ']');
    close_answer(&json);
}

static void show_words(const struct refused *read, const uint32_t counts[MOONBLEAT_COUNTS])
{
    if (read->answer[MOONBLEAT_NUMBER] == 0) {
        printf("sheet: %zu bytes, layouts %" PRIu32 ", views %" PRIu32 ", steps %" PRIu32 "\n", read->sheet_len,
               counts[0], counts[1], counts[2]);
        show_sheet(stdout, read->sheet, read->sheet_len);
    } else {
        printf("sheet: %zu bytes, refused\n", read->sheet_len);
        show_refused_sheet(stdout, read->sheet, read->sheet_len, readable_bytes(read), refusal_line(read).at);
    }
}

static int show(const struct request *request, const struct refused *read, const uint32_t counts[MOONBLEAT_COUNTS])
{
    bool accepted = read->answer[MOONBLEAT_NUMBER] == 0;
    if (request->words[OPTION_JSON] != NULL) {
        show_json(read);
        return accepted ? DONE : REFUSED;
    }
    if (request->words[OPTION_ASM] != NULL) {
        print_sheet_text(stdout, read);
    } else {
        show_words(read, counts);
    }
    return accepted ? DONE : answer_refusal(&show_command, request, read);
}

static int show_sheet_file(const struct request *request, struct bytes *file)
{
    if (!take_sheet(request->files[0], file)) {
        return FAILED;
    }
    uint32_t counts[MOONBLEAT_COUNTS] = {0};
    uint32_t answer[MOONBLEAT_ANSWER] = {0};
    const struct refused read = {.sheet = file->at, .sheet_len = file->len, .answer = answer};
    moonbleat_read(file->at, file->len, counts, answer);
    return show(request, &read, counts);
}

static int show_form(const struct request *request, enum form form, struct bytes *file)
{
    if (form != FORM_SHEET && request->words[OPTION_ASM] != NULL) {
        complain_of(request->files[0], "--asm prints sheets, and the form of this file is %s", form_name(form));
        return FAILED;
    }
    switch (form) {
    case FORM_TRACE:
        return show_trace(request, file);
    case FORM_TAPE:
        return show_tape(request, file);
    case FORM_MASKS:
        return show_masks(request, file);
    default:
        return show_sheet_file(request, file);
    }
}

static int do_show(const struct request *request)
{
    struct bytes file;
    const char *as = request->words[OPTION_AS];
    if (request->words[OPTION_JSON] != NULL && request->words[OPTION_ASM] != NULL) {
        return wrong_use(&show_command, "show prints one of --asm and --json");
    }
    if (as != NULL && find_form(as) == FORMS) {
        return wrong_use(&show_command, "--as %s: not sheet, trace, tape or masks", shown(as).at);
    }
    if (!read_file(request->files[0], (size_t)TRACE_FILE_MAX + 1, &file)) {
        return FAILED;
    }
    int status = show_form(request, as == NULL ? form_of(&file) : find_form(as), &file);
    free(file.at);
    return status;
}

const struct command show_command = {
    .name = "show",
    .files = "FILE",
    .files_min = 1,
    .files_max = 1,
    .takes = SET(OPTION_AS) | SET(OPTION_ASM) | SET(OPTION_JSON),
    .summary = "print a sheet in words or in its text form, or a trace, a tape or masks in words",
    .details = "A refused sheet or trace is printed as far as it makes sense, with a mark behind the refused\n"
               "field. What FILE holds is told by its bytes: a tape is text that begins with a number, a trace\n"
               "begins with the head of an access, masks have 1,088 bytes of which the first 34 are 0, and all\n"
               "else is a sheet or its text. --as says it for files that are empty or damaged.\n",
    .perform = do_show,
};
