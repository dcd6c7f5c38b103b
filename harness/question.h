/* Which element of which step is asked for, by words of the command line. */
#ifndef QUESTION_H
#define QUESTION_H

#include <stdbool.h>
#include <stdint.h>

struct question {
    uint32_t step;
    enum { EVERY_ELEMENT, BY_NUMBER, BY_POSITION } of;
    uint32_t element; /* of BY_POSITION 0 until it is placed */
    uint32_t row;     /* of BY_POSITION */
    uint32_t column;
};

/* What a word for an element must be. */
#define NO_ELEMENT "not the number of an element, and not ROW,COLUMN"

/* Take the number of a step, and of an element, which may be ROW,COLUMN. */
bool parse_step(const char *word, struct question *question);
bool parse_element(const char *word, struct question *question);

/* Finds the number of an element that is asked for by its position in a matrix. False if it lies outside: a
 * position past a row's end would be the number of another element. */
bool place_question(struct question *question, unsigned rows, unsigned columns);

#endif
