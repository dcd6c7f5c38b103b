/* Why an input is refused: the library gives a number and a place, this finds the number of the
 * sheet, the tape, the trace or the question that is at fault. It never says more than it found: a
 * cause is told only where the search comes to the library's own number at the library's own place. */
#ifndef DIAGNOSE_H
#define DIAGNOSE_H

#include <stdbool.h>
#include <stddef.h>
#include <stdint.h>

#include "files.h"
#include "tape_text.h"
#include "text.h"

/* What was refused, and the library's answer. */
struct refused {
    const uint8_t *sheet;
    size_t sheet_len;
    size_t memory_len;
    const struct tape *tape;   /* of a run-tape; NULL: none */
    const struct bytes *trace; /* if not NULL, it is refused, and not the sheet */
    bool of_question;          /* the step or the element that is asked for is refused, and not the sheet */
    const uint32_t *answer;
};

/* Finds the cause; false if there is nothing to tell beyond the refusal's own sentence. */
bool diagnose(const struct refused *refused, struct text *cause);

#endif
