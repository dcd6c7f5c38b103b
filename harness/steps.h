/* Steps of a sheet: their numbers, the registers' types before them, and what loads and stores
 * address with. */
#ifndef STEPS_H
#define STEPS_H

#include "diagnose.h"
#include "fields.h"
#include "moonbleat.h"
#include "places.h"

/* A step, its numbers, and the registers' types before it. */
struct step {
    struct field field;
    struct values values;
    uint8_t types[MOONBLEAT_TYPES];
};

/* The step of a number, without the types; false if the sheet has none. */
bool find_step(const struct refused *refused, uint32_t number, struct step *step);

/* The types before a step; false if a step before it is refused. */
bool find_types(const struct refused *refused, struct step *step);

/* The type of a register before a step. */
const uint8_t *register_type(const struct step *step, uint32_t number);

/* Whether a step is a load or a store. */
bool is_access(const struct step *step);

/* What a load or a store whose types are known addresses with; false if a part of it is missing. */
bool find_access(const struct refused *refused, const struct step *step, struct access *access);

/* The same for a step whose matrix has this type, without the types. */
bool find_addressing(const struct refused *refused, const struct step *step, const uint8_t type[MOONBLEAT_TYPE_BYTES],
                     struct access *access);

#endif
