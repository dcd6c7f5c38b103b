/* Holds the header's word on masks: what is left in their room by an accepted sheet and by a refused one, what
 * masks of any bytes answer, and that a sheet's own say of each element what its outcome says. */
#include <limits.h>
#include <string.h>

#include "cases.h"
#include "moonbleat.h"
#include "padded_sheet.h"

enum { GARBAGE = 0xA5, PAST = 8 };

/* -- Rooms ------------------------------------------------------------------------------------- */

/* The sheet's tape: the fill, the load's copy and its runs, the store's run. */
static const int32_t tape[] = {
    4, 0, 0, 0, 0,  0, /* the fill */
    0, 1, 0, 0, 0,  0, /* the load: its object, */
    3, 1, 0, 2, 9,  0, /* two elements below, */
    1, 1, 2, 4, 0,  1, /* four inside, */
    3, 1, 6, 2, 9,  0, /* two above */
    2, 1, 2, 4, 16, 1, /* the store: four inside */
};

enum { NUMBERS = sizeof tape / sizeof tape[0], RECORDS = NUMBERS / MOONBLEAT_RECORD_NUMBERS };
enum { ENOUGH = MOONBLEAT_MASKS, CUT_SHORT = sizeof sheet - 1, STORE_AT = 45 };

/* Of the load and of the store elements 2 to 5 have a byte. */
static void put_masks(uint8_t *masks)
{
    memset(masks, 0, MOONBLEAT_MASKS);
    for (size_t step = 1; step <= 2; step++) {
        uint8_t *mask = masks + MOONBLEAT_MASK_BYTES * step;
        mask[0] = 0x3C;
        mask[MOONBLEAT_MASK_COUNT] = 4;
    }
}

static const struct {
    const char *name;
    size_t sheet_len;
    size_t memory_len;
    size_t tape_len;
    size_t masks_len;
    uint32_t answer[MOONBLEAT_ANSWER];
} rooms[] = {
    {"rooms that just hold all", sizeof sheet, MEMORY, NUMBERS, ENOUGH, {0, 0, 0, 8}},
    {"longer rooms", sizeof sheet, MEMORY, NUMBERS + PAST, ENOUGH + PAST, {0, 0, 0, 8}},
    {"masks' room a byte short", sizeof sheet, MEMORY, NUMBERS, ENOUGH - 1, {MOONBLEAT_REFUSED_TAPE_LENGTH}},
    {"masks' room for the sheet's steps", sizeof sheet, MEMORY, NUMBERS, (size_t)3 * MOONBLEAT_MASK_BYTES,
     {MOONBLEAT_REFUSED_TAPE_LENGTH}},
    {"no room for masks", sizeof sheet, MEMORY, NUMBERS, 0, {MOONBLEAT_REFUSED_TAPE_LENGTH}},
    {"tape's room a number short", sizeof sheet, MEMORY, NUMBERS - 1, ENOUGH, {MOONBLEAT_REFUSED_TAPE_LENGTH}},
    {"no room at all", sizeof sheet, MEMORY, 0, 0, {MOONBLEAT_REFUSED_TAPE_LENGTH}},
    {"too long a memory", sizeof sheet, MOONBLEAT_MEMORY_MAX + 1, NUMBERS, 0, {MOONBLEAT_REFUSED_MEMORY}},
    {"a sheet cut short", CUT_SHORT, MEMORY, NUMBERS, 0, {MOONBLEAT_REFUSED_CUT_SHORT, STORE_AT}},
    {"too short a memory", sizeof sheet, MEMORY - 1, NUMBERS, 0, {MOONBLEAT_REFUSED_ADDRESS, 2, 5}},
    {"too short a memory, rooms that hold all", sizeof sheet, MEMORY - 1, NUMBERS, ENOUGH,
     {MOONBLEAT_REFUSED_ADDRESS, 2, 5}},
};

enum { ROOMS = sizeof rooms / sizeof rooms[0] };

static const char *room_name(size_t i)
{
    return rooms[i].name;
}

/* Whether the rooms have the tape and the masks, and garbage past them; if refused, garbage alone. */
static bool room_holds(size_t i)
{
    int32_t numbers[NUMBERS + PAST], wanted_numbers[NUMBERS + PAST];
    uint8_t masks[ENOUGH + PAST], wanted_masks[ENOUGH + PAST];
    uint32_t records[1], answer[MOONBLEAT_ANSWER];
    memset(numbers, GARBAGE, sizeof numbers);
    memset(wanted_numbers, GARBAGE, sizeof wanted_numbers);
    memset(masks, GARBAGE, sizeof masks);
    memset(wanted_masks, GARBAGE, sizeof wanted_masks);
    bool accepted = rooms[i].answer[MOONBLEAT_NUMBER] == 0;
    if (accepted) {
        memcpy(wanted_numbers, tape, sizeof tape);
        put_masks(wanted_masks);
    }
    uint32_t returned = moonbleat_translate(sheet, rooms[i].sheet_len, rooms[i].memory_len, numbers, rooms[i].tape_len,
                                            masks, rooms[i].masks_len, records, answer);
    return returned == rooms[i].answer[MOONBLEAT_NUMBER] &&
           memcmp(answer, rooms[i].answer, sizeof answer) == 0 && records[0] == (accepted ? RECORDS : 0) &&
           memcmp(numbers, wanted_numbers, sizeof numbers) == 0 && memcmp(masks, wanted_masks, sizeof masks) == 0;
}

/* -- Masks of any bytes ------------------------------------------------------------------------- */

/* Which bits are set: all, those of elements, those of counts, or that of one element. */
enum filling { ALL_SET, BITS_SET, COUNTS_SET, ONE_SET };
enum { ONE_STEP = 1, ONE_ELEMENT = 10, ITS_BYTE = MOONBLEAT_MASK_BYTES + 1, ITS_BITS = 0x04, OPPOSITE_ELEMENT = 13 };

/* A step of which 34 times it, in 32 bits, is 16. */
#define WRAPPING_STEP 126322568

static const struct {
    const char *name;
    enum filling filling;
    size_t len;
    uint32_t step;
    uint32_t element;
    uint32_t touched;
} questions[] = {
    {"the first bit", ALL_SET, ENOUGH, 0, 0, 1},
    {"the last bit", ALL_SET, ENOUGH, MOONBLEAT_STEPS_MAX - 1, MOONBLEAT_REGISTER_ELEMENTS - 1, 1},
    {"a step past the last", ALL_SET, ENOUGH + PAST, MOONBLEAT_STEPS_MAX, 0, 0},
    {"an element past the last", ALL_SET, ENOUGH, 0, MOONBLEAT_REGISTER_ELEMENTS, 0},
    {"an element that would be the next step's", ALL_SET, ENOUGH, 0, CHAR_BIT * MOONBLEAT_MASK_BYTES, 0},
    {"a step that would wrap", ALL_SET, ENOUGH, WRAPPING_STEP, 0, 0},
    {"the last numbers", ALL_SET, ENOUGH, UINT32_MAX, UINT32_MAX, 0},
    {"the last step, the last number of an element", ALL_SET, ENOUGH, MOONBLEAT_STEPS_MAX - 1, UINT32_MAX, 0},
    {"the last bit of a short room", ALL_SET, MOONBLEAT_MASK_BYTES + 1, 1, 7, 1},
    {"a bit past a short room", ALL_SET, MOONBLEAT_MASK_BYTES + 1, 1, 8, 0},
    {"the last bit of one byte", ALL_SET, 1, 0, 7, 1},
    {"a bit past one byte", ALL_SET, 1, 0, 8, 0},
    {"no bytes", ALL_SET, 0, 0, 0, 0},
    {"bits without a count", BITS_SET, ENOUGH, 7, 200, 1},
    {"a count without bits", COUNTS_SET, ENOUGH, 7, 200, 0},
    {"one bit", ONE_SET, ENOUGH, ONE_STEP, ONE_ELEMENT, 1},
    {"its byte from the other end", ONE_SET, ENOUGH, ONE_STEP, OPPOSITE_ELEMENT, 0},
    {"the bit before", ONE_SET, ENOUGH, ONE_STEP, ONE_ELEMENT - 1, 0},
    {"the step before", ONE_SET, ENOUGH, ONE_STEP - 1, ONE_ELEMENT, 0},
    {"the step behind", ONE_SET, ENOUGH, ONE_STEP + 1, ONE_ELEMENT, 0},
};

enum { QUESTIONS = sizeof questions / sizeof questions[0] };

static const char *question_name(size_t i)
{
    return questions[i].name;
}

static uint8_t byte_of(enum filling filling, size_t byte)
{
    bool is_count = byte % MOONBLEAT_MASK_BYTES >= MOONBLEAT_MASK_COUNT;
    switch (filling) {
    case ONE_SET:
        return byte == ITS_BYTE ? ITS_BITS : 0;
    case BITS_SET:
        return is_count ? 0 : UINT8_MAX;
    case COUNTS_SET:
        return is_count ? UINT8_MAX : 0;
    default:
        return UINT8_MAX;
    }
}

static bool question_holds(size_t i)
{
    uint8_t masks[ENOUGH + PAST];
    for (size_t byte = 0; byte < sizeof masks; byte++) {
        masks[byte] = byte_of(questions[i].filling, byte);
    }
    return moonbleat_touched(masks, questions[i].len, questions[i].step, questions[i].element) == questions[i].touched;
}

/* -- Masks and outcomes ------------------------------------------------------------------------- */

/* Every element of every step, and some past them. */
enum { STEPS = MOONBLEAT_STEPS_MAX + 2, ELEMENTS = MOONBLEAT_REGISTER_ELEMENTS + 2 };

static const char *element_name(size_t i)
{
    static char name[64];
    snprintf(name, sizeof name, "step %zu, element %zu", i / ELEMENTS, i % ELEMENTS);
    return name;
}

/* Whether the mask has the element exactly if its outcome is a byte. */
static bool element_holds(size_t i)
{
    uint8_t masks[MOONBLEAT_MASKS];
    uint32_t step = (uint32_t)(i / ELEMENTS), element = (uint32_t)(i % ELEMENTS);
    uint32_t outcome[MOONBLEAT_OUTCOME], answer[MOONBLEAT_ANSWER];
    uint32_t refusal = moonbleat_outcome(sheet, sizeof sheet, MEMORY, step, element, outcome, answer);
    put_masks(masks);
    bool has_byte = refusal == 0 && outcome[MOONBLEAT_OUTCOME_SORT] == MOONBLEAT_SORT_BYTE;
    return moonbleat_touched(masks, sizeof masks, step, element) == has_byte;
}

int main(void)
{
    int status = try_cases("rooms of masks", ROOMS, room_holds, room_name);
    status |= try_cases("masks of any bytes", QUESTIONS, question_holds, question_name);
    return status | try_cases("masks and outcomes", (size_t)STEPS * ELEMENTS, element_holds, element_name);
}
