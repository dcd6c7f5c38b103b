/* Answers of the library, as text or as a JSON object. */
#ifndef ANSWERS_H
#define ANSWERS_H

#include "command.h"
#include "json.h"
#include "refusals.h"

/* Begins a command's object: its name, and whether and why the input is refused. */
void open_answer(struct json *json, const struct command *command, const struct refused *refused);

/* Ends the object and its line. */
void close_answer(struct json *json);

/* Prints a refusal as the request asks; gives the exit status. */
int answer_refusal(const struct command *command, const struct request *request, const struct refused *refused);

#endif
