#include "diagnose.h"

#include "fields.h"
#include "judge.h"
#include "moonbleat.h"
#include "question_faults.h"
#include "record_faults.h"
#include "step_faults.h"
#include "trace_faults.h"

/* Refusals 1 to 6. */
static bool find_field_fault(const struct refused *refused, struct text *cause)
{
    size_t place = refused->answer[MOONBLEAT_PLACE];
    struct reading reading = {.rank = EDITION_RANK};
    struct field field;
    size_t at = 0;
    for (; field_at(refused->sheet, refused->sheet_len, at, &field); at = field_end(&field)) {
        uint32_t number = judge_field(&reading, &field, cause);
        if (number != 0) {
            return at == place && number == refused->answer[MOONBLEAT_NUMBER];
        }
        note_field(&reading, &field);
    }
    size_t left = refused->sheet_len - at;
    if (left > 0) {
        add_text(cause, HEAD_CUT_SENTENCE, "sheet", left);
    } else if (reading.counts[EDITION_RANK] == 0) {
        add_text(cause, NO_EDITION_SENTENCE);
    }
    uint32_t number = left > 0 ? MOONBLEAT_REFUSED_CUT_SHORT : MOONBLEAT_REFUSED_ORDER;
    return at == place && number == refused->answer[MOONBLEAT_NUMBER] && cause->len > 0;
}

bool diagnose(const struct refused *refused, struct text *cause)
{
    uint32_t number = refused->answer[MOONBLEAT_NUMBER];
    *cause = (struct text){.len = 0};
    if (refused->trace != NULL) {
        return find_trace_fault(refused, cause);
    }
    if (refused->of_question) {
        return find_question_fault(refused, cause);
    }
    if (number <= MOONBLEAT_REFUSED_EDITION) {
        return find_field_fault(refused, cause);
    }
    if (number <= MOONBLEAT_REFUSED_SHARED_BYTE) {
        return find_step_fault(refused, cause);
    }
    return number == MOONBLEAT_REFUSED_RECORD && find_record_fault(refused, cause);
}
