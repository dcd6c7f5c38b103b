/* where: where the elements of a load or a store go, and which way they were clamped. */
#include <inttypes.h>
#include <stdio.h>
#include <stdlib.h>

#include "answers.h"
#include "command.h"
#include "files.h"
#include "names.h"
#include "question.h"
#include "sheet_file.h"
#include "where.h"

/* -- The question ------------------------------------------------------------------------------ */

static int parse_question(const struct request *request, struct question *question)
{
    const char *step = request->files[1], *element = request->words[OPTION_ELEMENT];
    *question = (struct question){.of = EVERY_ELEMENT};
    if (!parse_step(step, question)) {
        return wrong_use(&where_command, "%s: not the number of a step", shown(step).at);
    }
    if (element != NULL && !parse_element(element, question)) {
        return wrong_use(&where_command, "--element %s: " NO_ELEMENT, shown(element).at);
    }
    return DONE;
}

/* -- The answer -------------------------------------------------------------------------------- */

static void open_json(struct json *json, const struct where *where)
{
    open_answer(json, &where_command, where->asked);
    json_number(json, "memory", (int64_t)where->asked->memory_len);
    json_number(json, "step", where->number);
    json_number(json, "rows", where->access.rows);
    json_number(json, "columns", where->access.columns);
    if (has_masks(where)) {
        json_mask(json, "mask", where->translation->masks, where->number);
    } else {
        json_null(json, "mask");
    }
}

static void print_map_json(const struct where *where, const struct told *outcomes)
{
    struct json json = {false};
    open_json(&json, where);
    json_open(&json, "outcomes", '[');
    for (unsigned i = 0; i < element_count(where); i++) {
        json_outcome(&json, NULL, i, &outcomes[i]);
    }
    json_close(&json, ']');
    close_answer(&json);
}

static int fail(const struct text *fault)
{
    fprintf(stderr, "moonbleat: %s\n", fault->at);
    return FAILED;
}

static int give_map(const struct request *request, const struct where *where)
{
    static struct told outcomes[MOONBLEAT_REGISTER_ELEMENTS];
    for (unsigned i = 0; i < element_count(where); i++) {
        struct place place;
        struct text fault;
        if (!find_outcome(where, i, &outcomes[i], &place, &fault)) {
            return fail(&fault);
        }
    }
    if (request->words[OPTION_JSON] != NULL) {
        print_map_json(where, outcomes);
    } else {
        print_step(where);
        print_map(where, outcomes);
    }
    return DONE;
}

static void print_way(const struct where *where, const struct way *way)
{
    print_step(where);
    for (size_t i = 0; i < way->count; i++) {
        puts(way->lines[i].at);
    }
}

static void print_way_json(const struct where *where, unsigned element, const struct told *told, const struct way *way)
{
    struct json json = {false};
    open_json(&json, where);
    json_outcome(&json, "outcome", element, told);
    if (has_masks(where)) {
        json_flag(&json, "touched", is_touched(where->translation->masks, where->number, element));
    } else {
        json_null(&json, "touched");
    }
    json_open(&json, "way", '[');
    for (size_t i = 0; i < way->count; i++) {
        json_text(&json, NULL, way->lines[i].at);
    }
    json_close(&json, ']');
    close_answer(&json);
}

static int give_way(const struct request *request, const struct where *where, unsigned element)
{
    static struct way way;
    struct told told;
    struct place place;
    struct text fault;
    if (!find_outcome(where, element, &told, &place, &fault)) {
        return fail(&fault);
    }
    tell_way(where, element, &place, &told, &way);
    if (request->words[OPTION_JSON] != NULL) {
        print_way_json(where, element, &told, &way);
    } else {
        print_way(where, &way);
    }
    return DONE;
}

static int give_where(const struct request *request, const struct where *where, struct question *question)
{
    const struct access *access = &where->access;
    if (question->of == EVERY_ELEMENT) {
        return give_map(request, where);
    }
    if (!place_question(question, access->rows, access->columns)) {
        return wrong_use(&where_command, "--element %s: the matrix of step %" PRIu32 " is %u by %u",
                         request->words[OPTION_ELEMENT], where->number, access->rows, access->columns);
    }
    return give_way(request, where, question->element);
}

/* Whether the sheet itself is accepted: then a refusal is of the step or the element that is asked for. */
static bool is_accepted(const struct refused *asked)
{
    uint32_t answer[MOONBLEAT_ANSWER];
    return moonbleat_check(asked->sheet, asked->sheet_len, asked->memory_len, answer) == 0;
}

static int answer_question(const struct request *request, const struct bytes *sheet, struct question *question)
{
    uint32_t outcome[MOONBLEAT_OUTCOME], answer[MOONBLEAT_ANSWER] = {0};
    struct refused asked = {.sheet = sheet->at, .sheet_len = sheet->len, .memory_len = request->memory,
                            .answer = answer};
    /* Every matrix has an element 0. */
    if (moonbleat_outcome(sheet->at, sheet->len, request->memory, question->step, question->element, outcome,
                          answer) != 0) {
        asked.of_question = is_accepted(&asked);
        return answer_refusal(&where_command, request, &asked);
    }
    static struct translation translation;
    struct where where;
    translate(sheet, request->memory, &translation);
    if (!find_where(&asked, &translation, question->step, &where)) {
        struct text fault = {.len = 0};
        add_text(&fault, "step %" PRIu32 ": a fault in this tool: it finds no load or store", question->step);
        return fail(&fault);
    }
    return give_where(request, &where, question);
}

static int do_where(const struct request *request)
{
    struct question question;
    struct bytes sheet;
    int status = parse_question(request, &question);
    if (status != DONE) {
        return status;
    }
    if (!read_sheet(request->files[0], &sheet)) {
        return FAILED;
    }
    status = answer_question(request, &sheet, &question);
    free(sheet.at);
    return status;
}

const struct command where_command = {
    .name = "where",
    .files = "SHEET STEP",
    .files_min = 2,
    .files_max = 2,
    .takes = SET(OPTION_MEMORY) | SET(OPTION_ELEMENT) | SET(OPTION_JSON),
    .summary = "map where the elements of a load or a store go, and which way they were clamped",
    .details = "STEP is the number of a load or a store, from 0 on, as show prints it. Each cell of the map is an\n"
               "element: its byte in memory, . for skipped (outside the view's clip), # for filled or x for\n"
               "discarded (outside the tensor). Behind it stands the first dimension in which the element lies\n"
               "outside: <0 is below in dimension 0, >1 above in dimension 1. A clamped element of a load has both:\n"
               "  col      0   1   2   3   4   5   6   7\n"
               "  row 0    2<0 1<0 0   1   2   3   2>0 1>0\n"
               "Below it stands the step's mask, as tape --masks writes it: the bytes that have the matrix's\n"
               "elements, and how many are set. These are the elements with a byte.\n"
               "With --element the way of one element is told instead, by rules 1 to 5 of docs/SHEETS.md, with\n"
               "every number on it, and its bit in the mask. The outcome is the library's; where the tool's own\n"
               "numbers come to another one, that is a fault in the tool, which says so, and the exit status is 3.\n",
    .perform = do_where,
};
