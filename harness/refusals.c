#include "refusals.h"

#include <inttypes.h>
#include <stddef.h>
#include <stdio.h>

#include "moonbleat.h"

/* What the numbers of a place name. */
enum place { NOTHING, BYTE, STEP, ELEMENT, RECORD };

static const struct refusal {
    enum place place;
    const char *sentence;
} refusals[] = {
    {NOTHING, "not a refusal"},
    [MOONBLEAT_REFUSED_CUT_SHORT] = {BYTE, "a field's head or content runs past the end"},
    [MOONBLEAT_REFUSED_TAG] = {BYTE, "the field's tag is not one that the sheet's edition, or a trace, has"},
    [MOONBLEAT_REFUSED_ORDER] = {BYTE, "a field is out of order, repeated or one too many, or there is no edition"},
    [MOONBLEAT_REFUSED_LENGTH] = {BYTE, "the field's length is not one that its tag has"},
    [MOONBLEAT_REFUSED_NUMBER] = {BYTE, "a number of the field, or what is asked for, is out of its range"},
    [MOONBLEAT_REFUSED_EDITION] = {BYTE, "the edition is not a known one"},
    [MOONBLEAT_REFUSED_EMPTY_REGISTER] = {STEP, "a register that the step reads is empty"},
    [MOONBLEAT_REFUSED_SHAPE] = {STEP, "shapes or kinds of the step's matrices do not fit"},
    [MOONBLEAT_REFUSED_BASE] = {STEP, "the base is not a multiple of 16"},
    [MOONBLEAT_REFUSED_VIEW] = {STEP, "the view has no dimensions and another dimension count than the layout"},
    [MOONBLEAT_REFUSED_BLOCK] = {STEP, "a store goes through a layout with a block size above 1"},
    [MOONBLEAT_REFUSED_INDEX] = {ELEMENT, "the index after the view is 2^32 or more"},
    [MOONBLEAT_REFUSED_OUTSIDE] = {ELEMENT, "the element lies outside the tensor and the clamp mode is Undefined"},
    [MOONBLEAT_REFUSED_ADDRESS] = {ELEMENT, "the element's bytes do not all lie in memory"},
    [MOONBLEAT_REFUSED_SHARED_BYTE] = {ELEMENT, "the store has put an earlier element at the same byte"},
    [MOONBLEAT_REFUSED_TAPE_LENGTH] = {NOTHING, "the tape has more than 1024 records"},
    [MOONBLEAT_REFUSED_RECORD] = {RECORD, "the record is out of range"},
    [MOONBLEAT_REFUSED_MEMORY] = {NOTHING, "the memory is longer than 65536 bytes"},
    [MOONBLEAT_REFUSED_ROOM] = {NOTHING, "the room for the written sheet or trace is too short"},
    [MOONBLEAT_REFUSED_TRACE_ORDER] = {BYTE, "step and element are not after those of the access before"},
};

static const struct refusal *find_refusal(uint32_t number)
{
    bool is_known = number < sizeof refusals / sizeof refusals[0] && refusals[number].sentence != NULL;
    return &refusals[is_known ? number : 0];
}

struct text refusal_place(const struct refused *refused)
{
    static const char *const names[] = {
        [NOTHING] = "", [BYTE] = "byte", [STEP] = "step", [ELEMENT] = "step", [RECORD] = "record"};
    const uint32_t *answer = refused->answer;
    enum place place = refused->of_question ? ELEMENT : find_refusal(answer[MOONBLEAT_NUMBER])->place;
    struct text text = {.len = 0};
    if (place != NOTHING) {
        add_text(&text, "%s %" PRIu32, names[place], answer[MOONBLEAT_PLACE]);
    }
    if (place == ELEMENT) {
        add_text(&text, ", element %" PRIu32, answer[MOONBLEAT_SECOND_PLACE]);
    }
    if (refused->trace != NULL) {
        add_text(&text, " of the trace");
    }
    return text;
}

struct text refusal_sentence(const struct refused *refused)
{
    struct text sentence;
    if (!diagnose(refused, &sentence)) {
        sentence = (struct text){.len = 0};
        add_text(&sentence, "%s", find_refusal(refused->answer[MOONBLEAT_NUMBER])->sentence);
    }
    return sentence;
}

struct text refusal_line(const struct refused *refused)
{
    struct text line = {.len = 0}, place = refusal_place(refused), sentence = refusal_sentence(refused);
    add_text(&line, "refusal %" PRIu32 "%s%s: %s", refused->answer[MOONBLEAT_NUMBER], place.len > 0 ? " at " : "",
             place.at, sentence.at);
    return line;
}

void print_refusal(const struct refused *refused)
{
    fprintf(stderr, "moonbleat: %s\n", refusal_line(refused).at);
}
