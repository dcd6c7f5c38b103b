#include "judge.h"

#include <inttypes.h>

#include "kinds.h"
#include "moonbleat.h"

struct range range_of(const struct number_form *form, const struct reading *reading, uint32_t kind)
{
    struct range range = {form->low, form->high, form->name_of};
    if (form->sort == LAYOUT || form->sort == VIEW) {
        int64_t last = (int64_t)reading->counts[form->sort == LAYOUT ? LAYOUT_RANK : VIEW_RANK] - 1;
        range.high = last < range.high ? last : range.high;
    }
    if (form->sort == VALUE) {
        range.high = (INT64_C(1) << kind_bits(kind)) - 1;
    }
    return range;
}

bool is_within(int64_t number, struct range range)
{
    return number >= range.low && number <= range.high &&
           (range.name_of == NULL || range.name_of((uint32_t)number) != NULL);
}

/* Adds "1 to 4096", or "0 to 5 or 8 to 9" where the numbers between have no name. */
static void add_range(struct text *text, struct range range)
{
    const char *before = "";
    for (int64_t first = range.low; first <= range.high; first++) {
        if (is_within(first, range)) {
            int64_t last = range.name_of == NULL ? range.high : first;
            while (is_within(last + 1, range)) {
                last++;
            }
            add_text(text, "%s%" PRId64 " to %" PRId64, before, first, last);
            before = " or ";
            first = last;
        }
    }
}

void add_out_of_range(struct text *text, const char *name, int64_t number, struct range range)
{
    add_text(text, "%s %" PRId64 " ", name, number);
    if (range.high < range.low) {
        add_text(text, "is not given: the sheet has no %s", name);
    } else if (range.high == range.low) {
        add_text(text, "is not %" PRId64, range.low);
    } else {
        add_text(text, "is not within ");
        add_range(text, range);
    }
}

void add_field_name(struct text *text, const struct reading *reading, const struct field_form *form)
{
    const struct rank_form *rank = &rank_forms[form->rank];
    add_text(text, "%s", rank->name);
    if (form->rank != EDITION_RANK) {
        add_text(text, " %u", reading->counts[form->rank]);
    }
    if (form->rank == STEP_RANK) {
        add_text(text, " (%s)", form->name);
    }
}

/* -- Refusals 1 to 4 -------------------------------------------------------------------------- */

bool is_known_field(unsigned edition, const struct field_form *form)
{
    return edition == 0 || form->since <= edition;
}

void add_later_edition(struct text *text, const struct field_form *form, unsigned edition)
{
    add_text(text, "tag 0x%02X (%s) comes with edition %u, and the sheet has edition %u", (unsigned)form->tag,
             form->name, (unsigned)form->since, edition);
}

static void add_known_tags(struct text *text, unsigned edition)
{
    const char *before = "";
    for (size_t i = 0; i < field_form_count; i++) {
        if (is_known_field(edition, &field_forms[i])) {
            add_text(text, "%s 0x%02X", before, (unsigned)field_forms[i].tag);
            before = ",";
        }
    }
}

static uint32_t judge_tag(const struct field *field, struct text *sentence)
{
    const struct field_form *form = field->form;
    if (form != NULL && is_known_field(field->edition, form)) {
        return 0;
    }
    if (form == NULL) {
        add_text(sentence, "tag 0x%02X is none of", (unsigned)field->tag);
        add_known_tags(sentence, field->edition);
    } else {
        add_later_edition(sentence, form, field->edition);
    }
    return MOONBLEAT_REFUSED_TAG;
}

static uint32_t judge_cut(const struct reading *reading, const struct field *field, struct text *sentence)
{
    if (field->content_len == field->length) {
        return 0;
    }
    if (field->form == NULL) {
        add_text(sentence, "a field with tag 0x%02X", (unsigned)field->tag);
    } else {
        add_field_name(sentence, reading, field->form);
    }
    add_text(sentence, ": length %zu runs past the end of the sheet by %zu", field->length,
             field->length - field->content_len);
    return MOONBLEAT_REFUSED_CUT_SHORT;
}

static uint32_t judge_order(const struct reading *reading, const struct field *field, struct text *sentence)
{
    enum rank rank = field->form->rank;
    bool edition_came = reading->counts[EDITION_RANK] > 0;
    if (!edition_came && rank == EDITION_RANK) {
        return 0;
    }
    add_field_name(sentence, reading, field->form);
    if (!edition_came) {
        add_text(sentence, " comes before the edition");
    } else if (rank == EDITION_RANK) {
        add_text(sentence, " is repeated");
    } else if (rank < reading->rank) {
        add_text(sentence, " comes after a %s", rank_forms[reading->rank].name);
    } else if (reading->counts[rank] >= rank_forms[rank].limit) {
        add_text(sentence, " is one too many: a sheet has at most %u", rank_forms[rank].limit);
    } else {
        *sentence = (struct text){.len = 0};
        return 0;
    }
    return MOONBLEAT_REFUSED_ORDER;
}

/* Whether a content of some length is one of a field's. */
static bool is_length(const struct field_form *form, size_t length)
{
    for (unsigned dimensions = 1; dimensions <= DIMENSIONS_MAX; dimensions++) {
        if (content_length(form, dimensions, false) == length || content_length(form, dimensions, true) == length) {
            return true;
        }
    }
    return false;
}

static uint32_t judge_length(const struct reading *reading, const struct field *field, struct text *sentence)
{
    if (is_length(field->form, field->length)) {
        return 0;
    }
    add_field_name(sentence, reading, field->form);
    add_text(sentence, ": length %zu is not", field->length);
    const char *before = "";
    for (size_t length = 0; length <= content_length(field->form, DIMENSIONS_MAX, true); length++) {
        if (is_length(field->form, length)) {
            add_text(sentence, "%s %zu", before, length);
            before = " or";
        }
    }
    return MOONBLEAT_REFUSED_LENGTH;
}

/* -- Refusals 5 and 6 ------------------------------------------------------------------------- */

static bool judge_value(const struct reading *reading, const struct field *field, const struct values *values,
                        size_t at, struct text *sentence)
{
    const struct value *value = &values->at[at];
    const struct part_form *part = &field->form->parts[value->part];
    if (is_none(value->form, value->raw) || value->form->sort == PERMUTED) {
        return true;
    }
    bool no_bias = lacks_bias(value);
    struct range range =
        no_bias ? (struct range){0, 0, NULL} : range_of(value->form, reading, value_of_sort(values, KIND));
    int64_t number = number_of(value->form, value->raw);
    if (is_within(number, range)) {
        return true;
    }
    if (field->form->rank != EDITION_RANK) {
        add_field_name(sentence, reading, field->form);
        if (part->repeat != ONCE) {
            add_text(sentence, ", dimension %u", value->dimension);
        }
        add_text(sentence, ": ");
    }
    add_out_of_range(sentence, value->form->name, number, range);
    add_text(sentence, "%s", no_bias ? ", and there is no bias" : "");
    return false;
}

/* The dimension count and has-dimensions must give the field's length. */
static bool judge_count(const struct reading *reading, const struct field *field, const struct values *values,
                        struct text *sentence)
{
    uint32_t count = value_of_sort(values, COUNT);
    size_t length = content_length(field->form, count, value_of_sort(values, SIZED) == 1);
    if (length == field->length) {
        return true;
    }
    add_field_name(sentence, reading, field->form);
    add_text(sentence, ": dimension count %" PRIu32 " gives a length of %zu, not %zu", count, length, field->length);
    return false;
}

static bool judge_permutation(const struct reading *reading, const struct field *field, const struct values *values,
                              struct text *sentence)
{
    uint32_t count = value_of_sort(values, COUNT);
    unsigned named = 0;
    for (size_t i = 0; i < values->count; i++) {
        const struct value *value = &values->at[i];
        if (value->form->sort == PERMUTED && value->raw < count) {
            named |= 1u << value->raw;
        }
    }
    bool has_permutation = field->form->rank == VIEW_RANK;
    if (!has_permutation || named == (1u << count) - 1) {
        return true;
    }
    add_field_name(sentence, reading, field->form);
    add_text(sentence, ": permutation");
    for (size_t i = 0; i < values->count; i++) {
        if (values->at[i].form->sort == PERMUTED) {
            add_text(sentence, " %" PRIu32, values->at[i].raw);
        }
    }
    add_text(sentence, " does not name each of 0 to %" PRIu32 " once", count - 1);
    return false;
}

static bool judge_values(const struct reading *reading, const struct field *field, struct text *sentence)
{
    struct values values;
    field_values(field, &values);
    size_t at = 0;
    for (; at < values.count && values.at[at].part == 0; at++) {
        if (!judge_value(reading, field, &values, at, sentence)) {
            return false;
        }
    }
    if (!judge_count(reading, field, &values, sentence) || !judge_permutation(reading, field, &values, sentence)) {
        return false;
    }
    for (; at < values.count; at++) {
        if (!judge_value(reading, field, &values, at, sentence)) {
            return false;
        }
    }
    return true;
}

uint32_t judge_field(const struct reading *reading, const struct field *field, struct text *sentence)
{
    *sentence = (struct text){.len = 0};
    uint32_t refusal = judge_cut(reading, field, sentence);
    if (refusal == 0) {
        refusal = judge_tag(field, sentence);
    }
    if (refusal == 0) {
        refusal = judge_order(reading, field, sentence);
    }
    if (refusal == 0) {
        refusal = judge_length(reading, field, sentence);
    }
    if (refusal != 0 || judge_values(reading, field, sentence)) {
        return refusal;
    }
    return field->form->rank == EDITION_RANK ? MOONBLEAT_REFUSED_EDITION : MOONBLEAT_REFUSED_NUMBER;
}

void note_field(struct reading *reading, const struct field *field)
{
    enum rank rank = field->form->rank;
    reading->counts[rank]++;
    reading->rank = rank;
}
