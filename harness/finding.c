#include "finding.h"

#include <inttypes.h>

#include "command.h"
#include "fields.h"
#include "kinds.h"
#include "traces.h"

const char *verdict_name(unsigned verdict)
{
    static const char *const names[VERDICTS] = {
        [VERDICT_AGREES] = "agrees",   [VERDICT_DIFFERS] = "differs",       [VERDICT_MISSING] = "missing",
        [VERDICT_REFUSED] = "refused", [VERDICT_UNREADABLE] = "unreadable",
    };
    return names[verdict];
}

static const struct {
    const char *suffix;
    bool of_card;
} parts[PARTS] = {
    [PART_SHEET] = {"sheet", false}, [PART_TEXT] = {"txt", false},           [PART_MEMORY] = {"memory", false},
    [PART_AFTER] = {"after", true},  [PART_REGISTERS] = {"registers", true}, [PART_TRACE] = {"trace", true},
    [PART_REFUSAL] = {"refusal", true},
};

const char *part_suffix(unsigned part)
{
    return parts[part].suffix;
}

bool is_cards_part(unsigned part)
{
    return parts[part].of_card;
}

void add_part_name(struct text *text, const char *name, const char *card, unsigned part)
{
    add_text(text, "%s.", name);
    if (is_cards_part(part)) {
        add_text(text, "%s.", card);
    }
    add_text(text, "%s", part_suffix(part));
}

/* The end of "1 byte differs" and of "2 bytes differ". */
static const char *differ(uint32_t count)
{
    return count == 1 ? "differs" : "differ";
}

void add_lead(struct text *text, const struct lead *lead)
{
    if (lead->there != 0) {
        add_text(text, "step %" PRIu32 " %s r%" PRIu32 ", element %" PRIu32 " (%" PRIu32 ", %" PRIu32 ")", lead->step,
                 field_of_tag((uint8_t)lead->tag)->name, lead->reg, lead->element, lead->row, lead->column);
        add_making(text, &lead->traits);
    }
}

void add_origin(struct text *text, const struct origin *origin)
{
    if (origin == NULL) {
        add_text(text, "no step writes there");
        return;
    }
    add_text(text,
             "step %" PRIu32 " store r%" PRIu32 ", element %" PRIu32 " (%" PRIu32 ", %" PRIu32 "), byte %" PRIu32
             " of %" PRIu32,
             origin->step, origin->reg, origin->element, origin->row, origin->column, origin->byte, origin->size);
}

void add_memory_difference(struct text *text, const struct memory_difference *difference)
{
    if (difference->bytes == 0) {
        return;
    }
    add_text(text, "byte %" PRIu32 " wants %02X, has %02X; ", difference->byte, (unsigned)difference->wants,
             (unsigned)difference->has);
    add_origin(text, difference->stored != 0 ? &difference->origin : NULL);
    add_text(text, "; %" PRIu32 " byte%s %s in %" PRIu32 " run%s", difference->bytes, plural(difference->bytes),
             differ(difference->bytes), difference->runs, plural(difference->runs));
}

static void add_type(struct text *text, const struct register_state *state)
{
    if (state->rows == 0) {
        add_text(text, "nothing");
    } else {
        const char *kind = kind_name(state->kind);
        add_text(text, "%" PRIu32 " by %" PRIu32 " of %s", state->rows, state->columns,
                 kind == NULL ? "an unknown kind" : kind);
    }
}

/* The bits as the number that they stand for. */
static void add_value(struct text *text, const struct register_state *state)
{
    add_text(text, "%" PRId64, element_value(state->kind, state->bits));
}

void add_giver(struct text *text, const struct register_difference *difference)
{
    if (difference->given != 0) {
        add_text(text, "step %" PRIu32 " %s r%" PRIu32, difference->step, field_of_tag((uint8_t)difference->tag)->name,
                 difference->reg);
    } else {
        add_text(text, "no step gives it");
    }
}

void add_register(struct text *text, const struct register_difference *difference)
{
    void (*add_state)(struct text *, const struct register_state *) = difference->typed != 0 ? add_value : add_type;
    uint32_t element = difference->element;
    add_text(text, "register %" PRIu32, difference->reg);
    if (difference->typed != 0) {
        uint32_t columns = difference->wants.columns;
        add_text(text, ", element %" PRIu32 " (%" PRIu32 ", %" PRIu32 ")", element, element / columns,
                 element % columns);
    }
    add_text(text, " wants ");
    add_state(text, &difference->wants);
    add_text(text, ", has ");
    add_state(text, &difference->has);
    add_text(text, "; ");
    add_giver(text, difference);
}

void add_register_difference(struct text *text, const struct register_difference *difference)
{
    if (difference->registers == 0) {
        return;
    }
    add_register(text, difference);
    add_text(text, "; %" PRIu32 " register%s %s", difference->registers, plural(difference->registers),
             differ(difference->registers));
}

static void add_access(struct text *text, const struct access_state *access)
{
    if (access->there == 0) {
        add_text(text, "nothing more");
        return;
    }
    add_text(text, "step %" PRIu32 ", element %" PRIu32 ": ", access->step, access->element);
    add_sort_words(text, access->sort, access->byte);
}

void add_trace_difference(struct text *text, const struct trace_difference *difference)
{
    if (difference->differs == 0) {
        return;
    }
    add_text(text, "access %" PRIu32 " of the trace wants ", difference->index);
    add_access(text, &difference->wants);
    add_text(text, ", has ");
    add_access(text, &difference->has);
    add_text(text, "; %" PRIu32 " of %" PRIu32 " access%s", difference->has_accesses, difference->wants_accesses,
             difference->wants_accesses == 1 ? "" : "es");
}

/* Adds an answer: that a sheet is accepted, or its refusal. */
static void add_answer(struct text *text, const char *who, const uint32_t refusal[3])
{
    if (refusal[0] == 0) {
        add_text(text, "%s accepts it", who);
    } else {
        add_text(text, "%s refuses it with %" PRIu32 " at %" PRIu32 ", %" PRIu32, who, refusal[0], refusal[1],
                 refusal[2]);
    }
}

void add_refusal_difference(struct text *text, const struct refusal_difference *difference)
{
    if (difference->differs != 0) {
        add_answer(text, "the reference", difference->wants);
        add_text(text, ", ");
        add_answer(text, "the card", difference->has);
    }
}

bool has_difference(const struct finding *finding)
{
    return finding->memory.bytes > 0 || finding->registers.registers > 0 || finding->trace.differs != 0 ||
           finding->claim.differs != 0;
}

/* Adds what separates a part of a sentence from the one before. */
static void add_mark(struct text *text, bool has_part)
{
    if (text->len > 0 && has_part) {
        add_text(text, "; ");
    }
}

void add_words(struct text *text, const struct finding *finding)
{
    add_lead(text, &finding->lead);
    add_mark(text, finding->memory.bytes > 0);
    add_memory_difference(text, &finding->memory);
    add_mark(text, finding->registers.registers > 0);
    add_register_difference(text, &finding->registers);
    add_mark(text, finding->trace.differs != 0);
    add_trace_difference(text, &finding->trace);
    add_refusal_difference(text, &finding->claim);
    add_text(text, "%s", finding->reason);
}

void put_finding(const struct sink *sink, const struct finding *finding, const char *file)
{
    struct text words = {.len = 0};
    sink->put(sink->file, verdict_name(finding->verdict));
    if (finding->verdict == VERDICT_MISSING || finding->verdict == VERDICT_UNREADABLE) {
        sink->put(sink->file, ": ");
        put_name(sink, file);
    }
    add_words(&words, finding);
    if (words.len > 0) {
        sink->put(sink->file, ": ");
        put_sentence(sink, words.at);
    }
}

size_t tally_sum(const struct tally *tally)
{
    size_t sum = 0;
    for (unsigned i = 0; i < VERDICTS; i++) {
        sum += tally->counts[i];
    }
    return sum;
}

int tally_status(const struct tally *tally)
{
    if (tally->counts[VERDICT_DIFFERS] > 0) {
        return DIFFER;
    }
    if (tally->counts[VERDICT_MISSING] > 0 || tally->counts[VERDICT_UNREADABLE] > 0) {
        return FAILED;
    }
    return tally->counts[VERDICT_REFUSED] > 0 ? INPUT_REFUSED : DONE;
}
