#include "report_fields.h"

#include "finding.h"
#include "folder.h"

#define FIELD(type, key, member) {key, offsetof(struct type, member)}
#define FIELDS(table) {table, sizeof(table) / sizeof((table)[0])}

static const struct number_field shard_table[] = {
    FIELD(shard, "part", part),
    FIELD(shard, "parts", parts),
};

static const struct number_field refusal_table[] = {
    FIELD(finding, "number", refusal[0]),
    FIELD(finding, "place", refusal[1]),
    FIELD(finding, "second_place", refusal[2]),
};

static const struct number_field lead_table[] = {
    FIELD(lead, "tag", tag),
    FIELD(lead, "step", step),
    FIELD(lead, "register", reg),
    FIELD(lead, "element", element),
    FIELD(lead, "row", row),
    FIELD(lead, "column", column),
};

static const struct number_field memory_table[] = {
    FIELD(memory_difference, "bytes", bytes),
    FIELD(memory_difference, "runs", runs),
    FIELD(memory_difference, "byte", byte),
    FIELD(memory_difference, "wants", wants),
    FIELD(memory_difference, "has", has),
    FIELD(memory_difference, "stored", stored),
    FIELD(memory_difference, "step", origin.step),
    FIELD(memory_difference, "register", origin.reg),
    FIELD(memory_difference, "element", origin.element),
    FIELD(memory_difference, "row", origin.row),
    FIELD(memory_difference, "column", origin.column),
    FIELD(memory_difference, "element_byte", origin.byte),
    FIELD(memory_difference, "element_size", origin.size),
};

static const struct number_field register_table[] = {
    FIELD(register_difference, "registers", registers),
    FIELD(register_difference, "register", reg),
    FIELD(register_difference, "typed", typed),
    FIELD(register_difference, "element", element),
    FIELD(register_difference, "given", given),
    FIELD(register_difference, "step", step),
    FIELD(register_difference, "tag", tag),
    FIELD(register_difference, "wants_kind", wants.kind),
    FIELD(register_difference, "wants_rows", wants.rows),
    FIELD(register_difference, "wants_columns", wants.columns),
    FIELD(register_difference, "wants_use", wants.use),
    FIELD(register_difference, "wants_bits", wants.bits),
    FIELD(register_difference, "has_kind", has.kind),
    FIELD(register_difference, "has_rows", has.rows),
    FIELD(register_difference, "has_columns", has.columns),
    FIELD(register_difference, "has_use", has.use),
    FIELD(register_difference, "has_bits", has.bits),
};

static const struct number_field trace_table[] = {
    FIELD(trace_difference, "differs", differs),
    FIELD(trace_difference, "index", index),
    FIELD(trace_difference, "wants_accesses", wants_accesses),
    FIELD(trace_difference, "has_accesses", has_accesses),
    FIELD(trace_difference, "wants_there", wants.there),
    FIELD(trace_difference, "wants_step", wants.step),
    FIELD(trace_difference, "wants_element", wants.element),
    FIELD(trace_difference, "wants_sort", wants.sort),
    FIELD(trace_difference, "wants_byte", wants.byte),
    FIELD(trace_difference, "has_there", has.there),
    FIELD(trace_difference, "has_step", has.step),
    FIELD(trace_difference, "has_element", has.element),
    FIELD(trace_difference, "has_sort", has.sort),
    FIELD(trace_difference, "has_byte", has.byte),
};

static const struct number_field claim_table[] = {
    FIELD(refusal_difference, "differs", differs),
    FIELD(refusal_difference, "wants_number", wants[0]),
    FIELD(refusal_difference, "wants_place", wants[1]),
    FIELD(refusal_difference, "wants_second_place", wants[2]),
    FIELD(refusal_difference, "has_number", has[0]),
    FIELD(refusal_difference, "has_place", has[1]),
    FIELD(refusal_difference, "has_second_place", has[2]),
};

const struct number_fields shard_fields = FIELDS(shard_table);
const struct number_fields refusal_fields = FIELDS(refusal_table);
const struct number_fields lead_fields = FIELDS(lead_table);
const struct number_fields memory_fields = FIELDS(memory_table);
const struct number_fields register_fields = FIELDS(register_table);
const struct number_fields trace_fields = FIELDS(trace_table);
const struct number_fields claim_fields = FIELDS(claim_table);
