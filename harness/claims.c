#include "claims.h"

#include <ctype.h>
#include <string.h>

#include "numbers.h"
#include "refusals.h"
#include "traces.h"

/* The access of an index, if a trace has so many. */
static struct access_state state_at(const uint8_t *trace, size_t count, size_t index)
{
    if (index >= count) {
        return (struct access_state){.there = 0};
    }
    struct entry entry = entry_at(trace, index);
    return (struct access_state){1, entry.step, entry.element, entry.sort, entry.byte};
}

bool compare_trace(const struct reference *reference, struct bytes trace, struct trace_difference *difference,
                   struct text *refusal)
{
    uint32_t verdict[MOONBLEAT_VERDICT] = {0}, answer[MOONBLEAT_ANSWER] = {0};
    *difference = (struct trace_difference){.differs = 0};
    if (moonbleat_replay(reference->sheet.at, reference->sheet.len, reference->memory.len, trace.at, trace.len, verdict,
                         answer) != 0) {
        struct refused refused = refused_reference(reference);
        refused.answer = answer;
        refused.trace = &trace;
        *refusal = refusal_line(&refused);
        return false;
    }
    if (verdict[MOONBLEAT_AGREES] == 0) {
        size_t index = verdict[MOONBLEAT_INDEX], count = trace.len / MOONBLEAT_ACCESS_BYTES;
        *difference = (struct trace_difference){
            .differs = 1,
            .index = (uint32_t)index,
            .wants_accesses = (uint32_t)reference->origins.access_count,
            .has_accesses = (uint32_t)count,
            .wants = state_at(reference->origins.trace, reference->origins.access_count, index),
            .has = state_at(trace.at, count, index),
        };
    }
    return true;
}

/* Takes the next number of a line, past blanks; false if there is none. */
static bool take_number(const char **text, const char *end, uint32_t *number)
{
    uint64_t wide;
    const char *at = *text;
    while (at < end && (*at == ' ' || *at == '\t')) {
        at++;
    }
    const char *first = at;
    while (at < end && isdigit((unsigned char)*at)) {
        at++;
    }
    *text = at;
    if (!parse_number(first, (size_t)(at - first), &wide) || wide > UINT32_MAX) {
        return false;
    }
    *number = (uint32_t)wide;
    return true;
}

bool parse_refusal(const char *text, size_t len, uint32_t refusal[3])
{
    const char *end = text + len, *at = text;
    if (!take_number(&at, end, &refusal[0]) || refusal[0] == 0 || !take_number(&at, end, &refusal[1])) {
        return false;
    }
    if (!take_number(&at, end, &refusal[2])) {
        refusal[2] = 0;
    }
    while (at < end && isspace((unsigned char)*at)) {
        at++;
    }
    return at == end;
}

void compare_refusals(const uint32_t wants[3], const uint32_t has[3], struct refusal_difference *difference)
{
    *difference = (struct refusal_difference){.differs = 0};
    if (memcmp(wants, has, sizeof difference->wants) != 0) {
        difference->differs = 1;
        memcpy(difference->wants, wants, sizeof difference->wants);
        memcpy(difference->has, has, sizeof difference->has);
    }
}
