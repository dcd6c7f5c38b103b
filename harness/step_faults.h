/* What is wrong with a step: refusals 7 to 15. */
#ifndef STEP_FAULTS_H
#define STEP_FAULTS_H

#include "diagnose.h"
#include "steps.h"

/* Refusals 7, 8 and, of a vector step, 14 of a step whose types are known; false if it gets none. */
bool find_empty_register(const struct step *step, struct text *cause);
bool find_shape_fault(const struct step *step, struct text *cause);
bool find_operand_fault(const struct step *step, size_t memory_len, unsigned *element, struct text *cause);

/* The cause of a refusal that names a step. */
bool find_step_fault(const struct refused *refused, struct text *cause);

#endif
