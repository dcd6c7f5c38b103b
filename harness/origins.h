/* Where bytes of memory and registers come from: the steps of a sheet that write them last. */
#ifndef ORIGINS_H
#define ORIGINS_H

#include <stdbool.h>
#include <stddef.h>
#include <stdint.h>

#include "fields.h"
#include "moonbleat.h"

/* The element whose store left a byte. */
struct origin {
    uint32_t step;
    uint32_t reg;
    uint32_t element;
    uint32_t row;
    uint32_t column;
    uint32_t byte; /* which byte of the element */
    uint32_t size; /* the element's bytes */
};

/* The origins of all bytes. Filled by trace_origins, read by the functions below. */
struct origins {
    struct stored {
        uint8_t by; /* the step's number + 1; 0: no step stores here */
        uint8_t byte;
        uint16_t element;
    } bytes[MOONBLEAT_MEMORY_MAX];
    size_t step_count;
    struct step_origin {
        struct field field;
        uint8_t reg;                         /* that it gives or stores */
        uint8_t type[MOONBLEAT_TYPE_BYTES];  /* of its matrix */
        uint8_t giver;                       /* of a store: the step that gives its matrix */
    } steps[MOONBLEAT_STEPS_MAX];
    uint8_t givers[MOONBLEAT_REGISTERS]; /* the last step that gives each register, + 1; 0: none does */
    uint8_t trace[MOONBLEAT_TRACE_MAX];
    size_t access_count;
};

/* Finds the origins for a sheet that moonbleat_check accepts for the memory's length. */
void trace_origins(const uint8_t *sheet, size_t sheet_len, size_t memory_len, struct origins *origins);

/* The number of the step that stores to a byte last, + 1; 0 if none does. */
unsigned stored_by(const struct origins *origins, size_t byte);

/* The origin of a byte that some step stores to. */
struct origin origin_of(const struct origins *origins, size_t byte);

/* The bytes of an element of a type. */
size_t type_element_size(const uint8_t type[MOONBLEAT_TYPE_BYTES]);

/* The elements of a matrix of a type. */
unsigned type_element_count(const uint8_t type[MOONBLEAT_TYPE_BYTES]);

#endif
