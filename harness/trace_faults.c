#include "trace_faults.h"

#include <inttypes.h>

#include "fields.h"
#include "judge.h"
#include "moonbleat.h"
#include "traces.h"

enum { ACCESS_CONTENT = MOONBLEAT_ACCESS_BYTES - HEAD_BYTES };

static uint32_t judge_head(const struct field *field, struct text *sentence)
{
    if (field->content_len < field->length) {
        add_text(sentence, "length %zu runs past the end of the trace by %zu", field->length,
                 field->length - field->content_len);
        return MOONBLEAT_REFUSED_CUT_SHORT;
    }
    if (field->tag != MOONBLEAT_TAG_ACCESS) {
        add_text(sentence, "tag 0x%02X is not 0x%02X", (unsigned)field->tag, (unsigned)MOONBLEAT_TAG_ACCESS);
        return MOONBLEAT_REFUSED_TAG;
    }
    if (field->length != ACCESS_CONTENT) {
        add_text(sentence, "length %zu is not %d", field->length, ACCESS_CONTENT);
        return MOONBLEAT_REFUSED_LENGTH;
    }
    return 0;
}

static uint32_t judge_numbers(const struct entry *entry, struct text *sentence)
{
    const struct range sorts = {MOONBLEAT_SORT_SKIPPED, MOONBLEAT_SORT_BYTE, NULL}, zero = {0, 0, NULL};
    if (!is_within(entry->sort, sorts)) {
        add_out_of_range(sentence, "sort", entry->sort, sorts);
        return MOONBLEAT_REFUSED_NUMBER;
    }
    if (entry->sort != MOONBLEAT_SORT_BYTE && entry->byte != 0) {
        add_out_of_range(sentence, "byte", entry->byte, zero);
        add_text(sentence, ", and the element is %s", sort_name(entry->sort));
        return MOONBLEAT_REFUSED_NUMBER;
    }
    return 0;
}

static uint32_t judge_order(const struct entry *before, const struct entry *entry, struct text *sentence)
{
    if (entry->step > before->step || (entry->step == before->step && entry->element > before->element)) {
        return 0;
    }
    add_text(sentence,
             "step %" PRIu32 ", element %" PRIu32 " is not after step %" PRIu32 ", element %" PRIu32
             " of the access before",
             entry->step, entry->element, before->step, before->element);
    return MOONBLEAT_REFUSED_TRACE_ORDER;
}

/* The refusal of a field of a trace whose fields before it are right; 0 if it is right too. */
static uint32_t judge_access(const uint8_t *trace, const struct field *field, struct text *sentence)
{
    size_t index = field->at / MOONBLEAT_ACCESS_BYTES;
    *sentence = (struct text){.len = 0};
    add_text(sentence, "access %zu: ", index);
    uint32_t refusal = judge_head(field, sentence);
    if (refusal != 0) {
        return refusal;
    }
    struct entry entry = entry_of(field->content);
    refusal = judge_numbers(&entry, sentence);
    if (refusal != 0 || index == 0) {
        return refusal;
    }
    struct entry before = entry_at(trace, index - 1);
    return judge_order(&before, &entry, sentence);
}

bool find_trace_fault(const struct refused *refused, struct text *cause)
{
    const struct bytes *trace = refused->trace;
    struct field field;
    size_t at = 0;
    uint32_t number = 0;
    while (number == 0 && field_at(trace->at, trace->len, at, &field)) {
        number = judge_access(trace->at, &field, cause);
        at = number == 0 ? field_end(&field) : at;
    }
    if (number == 0 && at < trace->len) {
        *cause = (struct text){.len = 0};
        add_text(cause, HEAD_CUT_SENTENCE, "trace", trace->len - at);
        number = MOONBLEAT_REFUSED_CUT_SHORT;
    }
    return at == refused->answer[MOONBLEAT_PLACE] && number == refused->answer[MOONBLEAT_NUMBER];
}
