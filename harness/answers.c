#include "answers.h"

#include <stdio.h>

#include "moonbleat.h"

void open_answer(struct json *json, const struct command *command, const struct refused *refused)
{
    bool accepted = refused->answer[MOONBLEAT_NUMBER] == 0;
    json_open(json, NULL, '{');
    json_text(json, "command", command->name);
    json_flag(json, "accepted", accepted);
    if (accepted) {
        json_null(json, "refusal");
        return;
    }
    json_open(json, "refusal", '{');
    json_number(json, "number", refused->answer[MOONBLEAT_NUMBER]);
    json_number(json, "place", refused->answer[MOONBLEAT_PLACE]);
    json_number(json, "second place", refused->answer[MOONBLEAT_SECOND_PLACE]);
    json_text(json, "at", refusal_place(refused).at);
    json_text(json, "sentence", refusal_sentence(refused).at);
    json_close(json, '}');
}

void close_answer(struct json *json)
{
    json_close(json, '}');
    putchar('\n');
}

int answer_refusal(const struct command *command, const struct request *request, const struct refused *refused)
{
    if (request->words[OPTION_JSON] == NULL) {
        print_refusal(refused);
        return REFUSED;
    }
    struct json json = {false};
    open_answer(&json, command, refused);
    close_answer(&json);
    return REFUSED;
}
