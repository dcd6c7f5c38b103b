#include "counts.h"

#include <stdlib.h>

#include "answers.h"
#include "files.h"
#include "result.h"
#include "sheet_file.h"

static int print_count(const struct command *command, const struct request *request, const struct refused *counted,
                       const char *name)
{
    if (request->words[OPTION_JSON] == NULL) {
        print_accepted(name, counted->answer);
        return DONE;
    }
    struct json json = {false};
    open_answer(&json, command, counted);
    json_number(&json, "memory", (int64_t)counted->memory_len);
    json_number(&json, name, counted->answer[MOONBLEAT_BYTE_ELEMENTS]);
    close_answer(&json);
    return DONE;
}

int answer_count(const struct command *command, const struct request *request, counter *count, const char *name)
{
    struct bytes sheet;
    if (!read_sheet(request->files[0], &sheet)) {
        return FAILED;
    }
    uint32_t answer[MOONBLEAT_ANSWER] = {0};
    const struct refused counted = {.sheet = sheet.at, .sheet_len = sheet.len, .memory_len = request->memory,
                                    .answer = answer};
    uint32_t number = count(sheet.at, sheet.len, request->memory, answer);
    int status = number == 0 ? print_count(command, request, &counted, name)
                             : answer_refusal(command, request, &counted);
    free(sheet.at);
    return status;
}
