#include "question.h"

#include <string.h>

#include "numbers.h"

bool parse_step(const char *word, struct question *question)
{
    return parse_index(word, strlen(word), &question->step);
}

bool parse_element(const char *word, struct question *question)
{
    const char *comma = strchr(word, ',');
    if (comma == NULL) {
        question->of = BY_NUMBER;
        return parse_index(word, strlen(word), &question->element);
    }
    question->of = BY_POSITION;
    return parse_index(word, (size_t)(comma - word), &question->row) &&
           parse_index(comma + 1, strlen(comma + 1), &question->column);
}

bool place_question(struct question *question, unsigned rows, unsigned columns)
{
    if (question->of == BY_POSITION) {
        question->element = question->row * columns + question->column;
        return question->row < rows && question->column < columns;
    }
    return true;
}
