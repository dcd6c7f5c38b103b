/* tape: a sheet's tape, and the masks beside it. */
#include <inttypes.h>
#include <stdio.h>
#include <stdlib.h>

#include "answers.h"
#include "command.h"
#include "files.h"
#include "outputs.h"
#include "result.h"
#include "sheet_file.h"
#include "tape_text.h"
#include "translation.h"

/* A refusal is also a line of three numbers, as the program print_tape has it. */
static int refuse(const struct request *request, const struct refused *refused)
{
    if (request->words[OPTION_JSON] == NULL) {
        printf("%" PRIu32 " %" PRIu32 " %" PRIu32 "\n", refused->answer[0], refused->answer[1], refused->answer[2]);
    }
    return answer_refusal(&tape_command, request, refused);
}

static void print_json(const struct refused *translated, const struct translation *translation)
{
    struct json json = {false};
    open_answer(&json, &tape_command, translated);
    json_number(&json, "memory", (int64_t)translated->memory_len);
    json_number(&json, BYTE_ELEMENTS, translated->answer[MOONBLEAT_BYTE_ELEMENTS]);
    json_records(&json, translation->tape, translation->records[0]);
    json_masks(&json, translation->masks);
    close_answer(&json);
}

/* The masks are written, then the records printed. */
static int give_tape(const struct request *request, const struct refused *translated,
                     const struct translation *translation)
{
    const struct output masks = {request->words[OPTION_MASKS], translation->masks, sizeof translation->masks, NULL};
    if (!write_outputs(&masks, 1)) {
        return FAILED;
    }
    if (request->words[OPTION_JSON] != NULL) {
        print_json(translated, translation);
    } else if (!is_standard_output(masks.name)) {
        print_tape(translation->tape, translation->records[0]);
    }
    return DONE;
}

static int do_tape(const struct request *request)
{
    static struct translation translation;
    struct bytes sheet;
    if (!read_sheet(request->files[0], &sheet)) {
        return FAILED;
    }
    const struct refused translated = {.sheet = sheet.at, .sheet_len = sheet.len, .memory_len = request->memory,
                                       .answer = translation.answer};
    int status = translate(&sheet, request->memory, &translation) ? give_tape(request, &translated, &translation)
                                                                   : refuse(request, &translated);
    free(sheet.at);
    return status;
}

const struct command tape_command = {
    .name = "tape",
    .files = "SHEET",
    .files_min = 1,
    .files_max = 1,
    .takes = SET(OPTION_MEMORY) | SET(OPTION_MASKS) | SET(OPTION_JSON),
    .summary = "print the sheet's tape for a memory of N bytes",
    .details = "One record a line, six decimal numbers; a refusal is one line of three, its number and place.\n"
               "The masks beside the tape say which elements each step touched: those of its load or store that\n"
               "have a byte. --masks writes them: 34 bytes a step, 1,088 for any sheet. Element E of step S is bit\n"
               "E mod 8, lowest first, of byte 34 * S + E / 8; bytes 32 and 33 of a step count its set bits.\n",
    .perform = do_tape,
};
