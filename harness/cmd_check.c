#include "command.h"
#include "counts.h"
#include "result.h"

static int do_check(const struct request *request)
{
    return answer_count(&check_command, request, moonbleat_check, BYTE_ELEMENTS);
}

const struct command check_command = {
    .name = "check",
    .files = "SHEET",
    .files_min = 1,
    .files_max = 1,
    .takes = SET(OPTION_MEMORY) | SET(OPTION_JSON),
    .summary = "say whether the sheet is accepted for a memory of N bytes",
    .perform = do_check,
};
