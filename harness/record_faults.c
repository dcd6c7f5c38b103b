#include "record_faults.h"

#include <inttypes.h>

#include "judge.h"
#include "kinds.h"
#include "moonbleat.h"
#include "step_faults.h"

enum { BYTE_STEP_MAX = 65535 };

/* The ops, and how many numbers of their records are used. */
static const struct {
    const char *name;
    size_t used;
} ops[] = {
    [MOONBLEAT_OP_COPY] = {"copy", RECORD_OBJECT + 1},
    [MOONBLEAT_OP_TAKE] = {"take", RECORD_STEP + 1},
    [MOONBLEAT_OP_PUT] = {"put", RECORD_STEP + 1},
    [MOONBLEAT_OP_FILL] = {"fill", RECORD_BITS + 1},
    [MOONBLEAT_OP_STEP] = {"whole step", RECORD_WHOLE_STEP + 1},
};

/* A record, and the registers' types before it. */
struct record {
    const int32_t *numbers;
    uint8_t types[MOONBLEAT_TYPES];
};

/* The records before it are run for the types, which no byte of a memory changes. */
static bool find_record(const struct refused *refused, size_t number, struct record *record)
{
    static uint8_t memory[MOONBLEAT_MEMORY_MAX];
    static uint32_t elements[MOONBLEAT_ELEMENTS];
    uint32_t answer[MOONBLEAT_ANSWER] = {0};
    if (number >= refused->tape->records || refused->memory_len > MOONBLEAT_MEMORY_MAX) {
        return false;
    }
    record->numbers = refused->tape->numbers + MOONBLEAT_RECORD_NUMBERS * number;
    return moonbleat_run(refused->sheet, refused->sheet_len, refused->tape->numbers, TAPE_ROOM, number, memory,
                         refused->memory_len, record->types, elements, answer) == 0;
}

/* Whether a number is out of its range; then it is told. */
static bool is_out(struct text *cause, const char *name, int64_t number, int64_t low, int64_t high)
{
    if (number >= low && number <= high) {
        return false;
    }
    add_out_of_range(cause, name, number, (struct range){low, high, NULL});
    return true;
}

/* Whether a number names no register, or one that is empty. */
static bool is_no_matrix(struct text *cause, const struct record *record, const char *name, int32_t number)
{
    if (is_out(cause, name, number, 0, MOONBLEAT_REGISTERS - 1)) {
        return true;
    }
    if (record->types[MOONBLEAT_TYPE_BYTES * number + MOONBLEAT_TYPE_ROWS] > 0) {
        return false;
    }
    add_text(cause, "register %" PRId32 " is empty", number);
    return true;
}

static bool find_copy_fault(const struct record *record, struct text *cause)
{
    return is_out(cause, "register", record->numbers[RECORD_REGISTER], 0, MOONBLEAT_REGISTERS - 1) ||
           is_no_matrix(cause, record, "object", record->numbers[RECORD_OBJECT]);
}

/* The first element whose bytes do not lie in memory. */
static bool find_byte_fault(const struct refused *refused, const struct record *record, unsigned size,
                            struct text *cause)
{
    int64_t byte = record->numbers[RECORD_BYTE];
    for (int64_t i = 0; i < record->numbers[RECORD_COUNT]; i++, byte += record->numbers[RECORD_STEP]) {
        if (byte < 0 || byte + size > (int64_t)refused->memory_len) {
            add_text(cause, "element %" PRId64 " has byte %" PRId64 ", and the memory %zu bytes",
                     record->numbers[RECORD_FIRST] + i, byte, refused->memory_len);
            return true;
        }
    }
    return false;
}

/* Take, put and fill. */
static bool find_elements_fault(const struct refused *refused, const struct record *record, struct text *cause)
{
    const int32_t *numbers = record->numbers;
    if (is_no_matrix(cause, record, "register", numbers[RECORD_REGISTER])) {
        return true;
    }
    const uint8_t *type = record->types + (size_t)MOONBLEAT_TYPE_BYTES * (size_t)numbers[RECORD_REGISTER];
    unsigned bits = kind_bits(type[MOONBLEAT_TYPE_KIND]);
    int64_t elements = (int64_t)type[MOONBLEAT_TYPE_ROWS] * type[MOONBLEAT_TYPE_COLUMNS];
    if (is_out(cause, "first element", numbers[RECORD_FIRST], 0, elements - 1) ||
        is_out(cause, "count", numbers[RECORD_COUNT], 1, elements - numbers[RECORD_FIRST])) {
        return true;
    }
    if (numbers[RECORD_OP] == MOONBLEAT_OP_FILL) {
        int64_t high = (INT64_C(1) << bits) - 1;
        int64_t value = bits == 32 ? (int64_t)(uint32_t)numbers[RECORD_BITS] : numbers[RECORD_BITS];
        return is_out(cause, "value", value, 0, high);
    }
    return is_out(cause, "step", numbers[RECORD_STEP], -BYTE_STEP_MAX, BYTE_STEP_MAX) ||
           find_byte_fault(refused, record, bits / 8, cause);
}

static bool find_whole_step_fault(const struct refused *refused, const struct record *record, struct text *cause)
{
    struct step step;
    int32_t number = record->numbers[RECORD_WHOLE_STEP];
    if (number < 0 || !find_step(refused, (uint32_t)number, &step)) {
        add_text(cause, "the sheet has no step %" PRId32, number);
        return true;
    }
    for (size_t i = 0; i < MOONBLEAT_TYPES; i++) {
        step.types[i] = record->types[i];
    }
    add_text(cause, "step %" PRId32 " (%s) ", number, step.field.form->name);
    if (step.field.tag == MOONBLEAT_TAG_LOAD || step.field.tag == MOONBLEAT_TAG_STORE) {
        add_text(cause, "is none");
        return true;
    }
    unsigned element;
    add_text(cause, "cannot be done: ");
    return find_empty_register(&step, cause) || find_shape_fault(&step, cause) ||
           find_operand_fault(&step, refused->memory_len, &element, cause);
}

static bool find_op_fault(const struct refused *refused, const struct record *record, struct text *cause)
{
    switch (record->numbers[RECORD_OP]) {
    case MOONBLEAT_OP_COPY:
        return find_copy_fault(record, cause);
    case MOONBLEAT_OP_STEP:
        return find_whole_step_fault(refused, record, cause);
    default:
        return find_elements_fault(refused, record, cause);
    }
}

bool find_record_fault(const struct refused *refused, struct text *cause)
{
    struct record record;
    if (refused->tape == NULL) {
        return false;
    }
    if (refused->tape->records > MOONBLEAT_RECORDS_MAX) {
        add_text(cause, "the tape has more than %d records", MOONBLEAT_RECORDS_MAX);
        return true;
    }
    if (!find_record(refused, refused->answer[MOONBLEAT_PLACE], &record)) {
        return false;
    }
    int32_t op = record.numbers[RECORD_OP];
    if (is_out(cause, "op", op, MOONBLEAT_OP_COPY, MOONBLEAT_OP_STEP)) {
        return true;
    }
    add_text(cause, "%s: ", ops[op].name);
    for (size_t i = ops[op].used; i < MOONBLEAT_RECORD_NUMBERS; i++) {
        if (record.numbers[i] != 0) {
            add_text(cause, "the unused number %" PRId32 " is not 0", record.numbers[i]);
            return true;
        }
    }
    return find_op_fault(refused, &record, cause);
}
