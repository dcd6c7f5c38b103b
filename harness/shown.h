/* The elements of a sheet that a card's memory and registers show, and their sorts. An element is shown by memory
 * if no later step stores over all of its bytes, by a register if its matrix is there at the end. */
#ifndef SHOWN_H
#define SHOWN_H

#include <stdbool.h>
#include <stddef.h>
#include <stdint.h>

#include "moonbleat.h"
#include "origins.h"
#include "traits.h"

/* The numbers of sorts that are no elements' in every census, from 0 on. */
enum { STRAYS, TRACES, REFUSALS, APARTS };

enum {
    /* Each element of a store is of one sort, or, left out, of two at most. */
    CENSUS_MAX = (2 * MOONBLEAT_STEPS_MAX + MOONBLEAT_REGISTERS) * MOONBLEAT_REGISTER_ELEMENTS +
                 APARTS
};

/* How many elements of each sort a sheet shows. */
struct census {
    uint32_t count;
    struct sort_count {
        struct traits traits;
        uint32_t memory;    /* shown by memory */
        uint32_t registers; /* shown by registers */
    } at[CENSUS_MAX];
};

/* By element: the number of its sort in the census, + 1; 0: it is not shown. */
typedef uint16_t shown_matrix[MOONBLEAT_REGISTER_ELEMENTS];

struct shown {
    struct census census;
    shown_matrix stored[MOONBLEAT_STEPS_MAX];
    shown_matrix shadows[SHADOWS][MOONBLEAT_STEPS_MAX]; /* elements that stores leave out, where no step writes */
    shown_matrix registers[MOONBLEAT_REGISTERS];
    struct shadow_byte {
        uint8_t by; /* the step's number + 1; 0: none */
        uint8_t element;
    } bytes[SHADOWS][MOONBLEAT_MEMORY_MAX];
};

/* Begins a census of a sheet that shows nothing. */
void begin_census(struct census *census);

/* Finds them for a sheet whose origins are known. */
void find_shown(const uint8_t *sheet, size_t sheet_len, size_t memory_len, const struct origins *origins,
                struct shown *shown);

#endif
