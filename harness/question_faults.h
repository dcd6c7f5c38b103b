/* What is wrong with a question for an outcome: refusal 5 at a step and an element. */
#ifndef QUESTION_FAULTS_H
#define QUESTION_FAULTS_H

#include "diagnose.h"

bool find_question_fault(const struct refused *refused, struct text *cause);

#endif
