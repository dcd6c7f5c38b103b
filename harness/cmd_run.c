/* run and run-tape: a sheet or a tape carried out on a memory. */
#include <stdio.h>
#include <stdlib.h>

#include "answers.h"
#include "command.h"
#include "files.h"
#include "hex.h"
#include "outputs.h"
#include "result.h"
#include "sheet_file.h"
#include "tape_text.h"

static void print_words(const struct request *request, const struct refused *ran, const struct bytes *memory,
                        const struct result *result)
{
    print_result(result);
    if (request->words[OPTION_HEX] != NULL) {
        print_hex(memory);
        print_writers(ran->sheet, ran->sheet_len, memory->len);
    }
}

static void print_answer(const struct command *command, const struct request *request, const struct refused *ran,
                         const struct bytes *memory, const struct result *result)
{
    if (request->words[OPTION_JSON] == NULL) {
        print_words(request, ran, memory, result);
        return;
    }
    struct json json = {false};
    open_answer(&json, command, ran);
    json_result(&json, result);
    close_answer(&json);
}

/* Ends a run that was accepted: the files written, then the registers printed. */
static int finish_run(const struct command *command, const struct request *request, const struct refused *ran,
                      const struct bytes *memory, const struct result *result)
{
    const char *memory_name = request->words[OPTION_OUT], *registers_name = request->words[OPTION_REGISTERS];
    uint8_t registers[REGISTERS_BYTES];
    registers_bytes(result, registers);
    const struct output outputs[] = {{memory_name, memory->at, memory->len, NULL},
                                     {registers_name, registers, sizeof registers, NULL}};
    if (!write_outputs(outputs, sizeof outputs / sizeof outputs[0])) {
        return FAILED;
    }
    if (!is_standard_output(memory_name) && !is_standard_output(registers_name)) {
        print_answer(command, request, ran, memory, result);
    }
    return DONE;
}

/* Carries out a sheet, or runs a tape with it if there is one. */
static int carry_out_or_run(const struct command *command, const struct request *request, const struct bytes *sheet,
                            const struct tape *tape, const char *memory_name)
{
    static struct result result;
    struct bytes memory;
    if (!read_memory(memory_name, &memory)) {
        return FAILED;
    }
    if (tape == NULL) {
        moonbleat_carry_out(sheet->at, sheet->len, memory.at, memory.len, result.types, result.elements,
                            result.answer);
    } else {
        moonbleat_run(sheet->at, sheet->len, tape->numbers, TAPE_ROOM, tape->records, memory.at, memory.len,
                      result.types, result.elements, result.answer);
    }
    const struct refused ran = {.sheet = sheet->at, .sheet_len = sheet->len, .memory_len = memory.len, .tape = tape,
                                .answer = result.answer};
    int status = result.answer[MOONBLEAT_NUMBER] == 0 ? finish_run(command, request, &ran, &memory, &result)
                                                       : answer_refusal(command, request, &ran);
    free(memory.at);
    return status;
}

static int do_run(const struct request *request)
{
    struct bytes sheet;
    if (request->words[OPTION_HEX] != NULL && request->words[OPTION_JSON] != NULL) {
        return wrong_use(&run_command, "run prints one of --hex and --json");
    }
    if (!read_sheet(request->files[0], &sheet)) {
        return FAILED;
    }
    int status = carry_out_or_run(&run_command, request, &sheet, NULL, request->files[1]);
    free(sheet.at);
    return status;
}

static int do_run_tape(const struct request *request)
{
    static struct tape tape;
    struct bytes sheet;
    if (!read_sheet(request->files[0], &sheet)) {
        return FAILED;
    }
    int status = FAILED;
    if (read_tape(request->files[1], &tape)) {
        status = carry_out_or_run(&run_tape_command, request, &sheet, &tape, request->files[2]);
    }
    if (status == DONE && tape.records == 0) {
        complain_of(request->files[1], "warning: the tape is empty");
    }
    free(sheet.at);
    return status;
}

const struct command run_command = {
    .name = "run",
    .files = "SHEET MEMORY",
    .files_min = 2,
    .files_max = 2,
    .overwrites = 2,
    .takes = SET(OPTION_OUT) | SET(OPTION_REGISTERS) | SET(OPTION_HEX) | SET(OPTION_JSON),
    .out = "the memory afterwards",
    .summary = "carry the sheet out on a memory; print the registers",
    .details = "Elements are printed row by row, by their sign. The last line says how many elements of loads\n"
               "and stores had a byte. With --hex the memory follows as xxd prints it, and which step wrote which\n"
               "bytes last:\n"
               "  00000000: 0001 0203 0009 0909 0909 0900 0c0d 0e0f  ................\n"
               "  bytes 4 to 11: step 2 (store)\n"
               "  no step writes 8 bytes\n"
               "OUT may be MEMORY, if it is called so.\n",
    .perform = do_run,
};

const struct command run_tape_command = {
    .name = "run-tape",
    .files = "SHEET TAPE MEMORY",
    .files_min = 3,
    .files_max = 3,
    .overwrites = 3,
    .takes = SET(OPTION_OUT) | SET(OPTION_REGISTERS) | SET(OPTION_JSON),
    .out = "the memory afterwards",
    .summary = "run a tape with its sheet on a memory; print the registers",
    .details = "TAPE is as tape prints it: one record a line, six decimal numbers.\n",
    .perform = do_run_tape,
};
