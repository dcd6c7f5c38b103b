/* touched: whether a step of a sheet touched an element, by its mask. */
#include <inttypes.h>
#include <stdio.h>
#include <stdlib.h>

#include "answers.h"
#include "command.h"
#include "files.h"
#include "names.h"
#include "question.h"
#include "sheet_file.h"
#include "traces.h"
#include "where.h"

/* -- The question ------------------------------------------------------------------------------ */

static int parse_question(const char *step, const char *element, struct question *question)
{
    *question = (struct question){.of = BY_NUMBER};
    if (!parse_step(step, question)) {
        return wrong_use(&touched_command, "%s: not the number of a step", shown(step).at);
    }
    if (!parse_element(element, question)) {
        return wrong_use(&touched_command, "%s: " NO_ELEMENT, shown(element).at);
    }
    return DONE;
}

/* What the files and options leave open: a sheet, or masks in its place. */
static int check_request(const struct request *request)
{
    bool kept = request->words[OPTION_KEPT_MASKS] != NULL;
    if (!kept && request->file_count < touched_command.files_max) {
        return wrong_use(&touched_command, "touched takes %s", touched_command.files);
    }
    if (kept && request->file_count == touched_command.files_max) {
        return wrong_use(&touched_command, "touched --masks takes STEP ELEMENT, and %s is one more",
                         shown(request->files[0]).at);
    }
    if (kept && request->words[OPTION_MEMORY] != NULL) {
        return wrong_use(&touched_command, "touched takes one of --masks and --memory");
    }
    return DONE;
}

/* -- The answer -------------------------------------------------------------------------------- */

/* An answer, and the words for it. */
struct reply {
    struct question question;
    bool is_placed; /* the element's number is known */
    bool touched;
    struct text reason;
};

static void print_json(const struct request *request, const struct refused *asked, const struct reply *reply)
{
    struct json json = {false};
    open_answer(&json, &touched_command, asked);
    if (request->words[OPTION_KEPT_MASKS] == NULL) {
        json_number(&json, "memory", (int64_t)asked->memory_len);
    }
    json_number(&json, "step", reply->question.step);
    if (reply->is_placed) {
        json_number(&json, "element", reply->question.element);
    } else {
        json_null(&json, "element");
    }
    json_flag(&json, "touched", reply->touched);
    json_text(&json, "reason", reply->reason.at);
    close_answer(&json);
}

static int give_answer(const struct request *request, const struct refused *asked, const struct reply *reply)
{
    const struct question *question = &reply->question;
    if (request->words[OPTION_JSON] != NULL) {
        print_json(request, asked, reply);
    } else {
        printf("%s: step %" PRIu32 ", ", reply->touched ? "touched" : "not touched", question->step);
        if (reply->is_placed) {
            printf("element %" PRIu32, question->element);
        } else {
            printf("row %" PRIu32 ", column %" PRIu32, question->row, question->column);
        }
        printf(": %s\n", reply->reason.at);
    }
    return reply->touched ? DONE : UNTOUCHED;
}

/* -- By a sheet -------------------------------------------------------------------------------- */

/* What becomes of the element, or why it is none of a load or a store. */
static struct text find_reason(const struct refused *translated, const struct question *question)
{
    uint32_t outcome[MOONBLEAT_OUTCOME], answer[MOONBLEAT_ANSWER];
    struct refused asked = *translated;
    asked.answer = answer;
    asked.of_question = true;
    if (moonbleat_outcome(asked.sheet, asked.sheet_len, asked.memory_len, question->step, question->element, outcome,
                          answer) != 0) {
        return refusal_sentence(&asked);
    }
    struct text reason = {.len = 0};
    add_sort_words(&reason, outcome[MOONBLEAT_OUTCOME_SORT], outcome[MOONBLEAT_OUTCOME_VALUE]);
    return reason;
}

static int ask_sheet(const struct request *request, const struct bytes *sheet, const struct question *question)
{
    static struct translation translation;
    const struct refused translated = {.sheet = sheet->at, .sheet_len = sheet->len, .memory_len = request->memory,
                                       .answer = translation.answer};
    if (!translate(sheet, request->memory, &translation)) {
        answer_refusal(&touched_command, request, &translated);
        return INPUT_REFUSED;
    }
    struct where where;
    struct reply reply = {.question = *question};
    bool is_found = find_where(&translated, &translation, question->step, &where);
    if (is_found && !place_question(&reply.question, where.access.rows, where.access.columns)) {
        return wrong_use(&touched_command, "%s: the matrix of step %" PRIu32 " is %u by %u", request->files[2],
                         question->step, where.access.rows, where.access.columns);
    }
    reply.is_placed = is_found || question->of == BY_NUMBER;
    reply.touched = is_touched(translation.masks, question->step, reply.question.element);
    reply.reason = find_reason(&translated, &reply.question);
    return give_answer(request, &translated, &reply);
}

static int read_and_ask_sheet(const struct request *request)
{
    struct question question;
    struct bytes sheet;
    int status = parse_question(request->files[1], request->files[2], &question);
    if (status != DONE) {
        return status;
    }
    if (!read_sheet(request->files[0], &sheet)) {
        return FAILED;
    }
    status = ask_sheet(request, &sheet, &question);
    free(sheet.at);
    return status;
}

/* -- By kept masks ----------------------------------------------------------------------------- */

/* Where the masks have the element's bit. */
static struct text find_bit(const struct question *question, bool touched)
{
    struct text reason = {.len = 0};
    if (question->step < MOONBLEAT_STEPS_MAX && question->element < MOONBLEAT_REGISTER_ELEMENTS) {
        add_text(&reason, "bit %" PRIu32 " of byte %" PRIu32 " is %s", question->element % 8,
                 MOONBLEAT_MASK_BYTES * question->step + question->element / 8, touched ? "set" : "not set");
    } else {
        add_text(&reason, "masks have %d steps of %d elements, from 0 on", MOONBLEAT_STEPS_MAX,
                 MOONBLEAT_REGISTER_ELEMENTS);
    }
    return reason;
}

static int ask_masks(const struct request *request)
{
    const char *name = request->words[OPTION_KEPT_MASKS];
    struct reply reply = {.is_placed = true};
    struct bytes masks;
    int status = parse_question(request->files[0], request->files[1], &reply.question);
    if (status != DONE) {
        return status;
    }
    if (reply.question.of == BY_POSITION) {
        return wrong_use(&touched_command, "%s: masks have no rows and columns, ELEMENT must be a number",
                         request->files[1]);
    }
    if (!read_file(name, MOONBLEAT_MASKS + 1, &masks)) {
        return FAILED;
    }
    status = FAILED;
    if (is_masks_length(name, &masks)) {
        const uint32_t answer[MOONBLEAT_ANSWER] = {0};
        reply.touched = is_touched(masks.at, reply.question.step, reply.question.element);
        reply.reason = find_bit(&reply.question, reply.touched);
        status = give_answer(request, &(struct refused){.answer = answer}, &reply);
    }
    free(masks.at);
    return status;
}

/* -- The command ------------------------------------------------------------------------------- */

static int do_touched(const struct request *request)
{
    int status = check_request(request);
    if (status != DONE) {
        return status;
    }
    return request->words[OPTION_KEPT_MASKS] != NULL ? ask_masks(request) : read_and_ask_sheet(request);
}

const struct command touched_command = {
    .name = "touched",
    .files = "SHEET STEP ELEMENT",
    .files_min = 2,
    .files_max = 3,
    .takes = SET(OPTION_MEMORY) | SET(OPTION_KEPT_MASKS) | SET(OPTION_JSON),
    .summary = "say whether a step of the sheet touched an element, by its mask",
    .details = "STEP and ELEMENT are numbers, from 0 on, as trace prints them; ELEMENT may be ROW,COLUMN, as where\n"
               "takes it. A step touches the elements of its load or store that have a byte in memory, and no\n"
               "others:\n"
               "  touched: step 1, element 2: byte 0\n"
               "  not touched: step 1, element 0: filled\n"
               "Of a step that is no load or store, one past the last and an element past the matrix the answer\n"
               "is no, and the line says which of them it is. tape --masks writes the masks of all steps, and\n"
               "  moonbleat touched --masks FILE STEP ELEMENT\n"
               "asks such a file, without the sheet:\n"
               "  touched: step 1, element 2: bit 2 of byte 34 is set\n"
               "Exit status: 0 touched, 1 not touched, 2 wrong use, 3 a file cannot be read, 4 the sheet is\n"
               "refused, as tape refuses it.\n",
    .perform = do_touched,
};
