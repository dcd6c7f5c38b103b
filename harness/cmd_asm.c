#include <stdio.h>
#include <stdlib.h>

#include "asm.h"
#include "command.h"
#include "files.h"
#include "moonbleat.h"
#include "names.h"
#include "outputs.h"
#include "refusals.h"
#include "sheet_file.h"
#include "steps.h"

/* Whether a sheet is read; what is refused then is a step. */
static bool is_read(const struct refused *refused)
{
    uint32_t number = refused->answer[MOONBLEAT_NUMBER];
    return number == 0 || number > MOONBLEAT_REFUSED_EDITION;
}

/* The warning of a refusal, at the line of its field or its step. */
static void print_warning(const char *name, const struct assembly *assembly, const struct refused *refused)
{
    struct step step;
    size_t byte = refused->answer[MOONBLEAT_PLACE];
    if (is_read(refused) && find_step(refused, refused->answer[MOONBLEAT_PLACE], &step)) {
        byte = step.field.at;
    }
    put_word(stderr, name);
    fprintf(stderr, ":%zu: warning: %s\n", asm_line_of(assembly, byte), refusal_line(refused).at);
}

/* Writes a sheet that has no error: the library has the last word on it. A sheet that is refused for
 * the longest memory is refused for every one. */
static int write_sheet(const struct request *request, const struct assembly *assembly)
{
    const struct bytes *sheet = &assembly->sheet;
    uint32_t answer[MOONBLEAT_ANSWER] = {0};
    const struct refused refused = {.sheet = sheet->at, .sheet_len = sheet->len, .memory_len = MOONBLEAT_MEMORY_MAX,
                                    .answer = answer};
    uint32_t number = moonbleat_check(sheet->at, sheet->len, MOONBLEAT_MEMORY_MAX, answer);
    if (!is_read(&refused) && !assembly->allows_refused) {
        print_refusal(&refused);
        return REFUSED;
    }
    if (number != 0) {
        print_warning(request->files[0], assembly, &refused);
    }
    const struct output output = {request->words[OPTION_OUT], sheet->at, sheet->len, NULL};
    return write_outputs(&output, 1) ? DONE : FAILED;
}

static int do_asm(const struct request *request)
{
    struct bytes text;
    if (!read_file(request->files[0], (size_t)SHEET_TEXT_MAX + 1, &text)) {
        return FAILED;
    }
    struct assembly assembly;
    int status = assemble_file(request->files[0], &text, &assembly) ? write_sheet(request, &assembly) : FAILED;
    free_assembly(&assembly);
    free(text.at);
    return status;
}

const struct command asm_command = {
    .name = "asm",
    .files = "TEXT",
    .files_min = 1,
    .files_max = 1,
    .takes = SET(OPTION_OUT),
    .needs = SET(OPTION_OUT),
    .out = "the sheet",
    .summary = "make a sheet of its text form",
    .details = "One line a field, # begins a comment; docs/SHEETS.md describes the form. For instance:\n"
               "\n"
               "  edition 1\n"
               "  layout L0 MirrorRepeat value 0\n"
               "    dim block 1 size 4 stride 1 offset -2 span 8\n"
               "  fill r0 1x8 u8 0\n"
               "  load r1 object r0 L0 base 0\n"
               "\n"
               "Editions from 2 on also have the vector step, a matrix in memory times a vector, with a bias or\n"
               "without:\n"
               "\n"
               "  vector r2 s32 of r1 as packed-s8 matrix s8 4x6 row-major stride 6 offset 16 bias 64\n"
               "\n"
               "A load without an object keeps what its register holds where elements are skipped; from edition 3\n"
               "on it starts from zeros, and may say so:\n"
               "\n"
               "  load r1 object zeros L0 base 0\n"
               "\n"
               "The first ten errors are printed as TEXT:LINE:COLUMN: and a sentence. A sheet that is read but\n"
               "refused whatever the memory is written with a warning at the line of its step. Behind a first\n"
               "line 'allow refused' numbers may be out of their ranges and fields out of order, with a warning\n"
               "too.\n",
    .perform = do_asm,
};
