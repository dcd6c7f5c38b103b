/* What is wrong with a field of a trace: refusals 1, 2, 4, 5 and 26. */
#ifndef TRACE_FAULTS_H
#define TRACE_FAULTS_H

#include "diagnose.h"

bool find_trace_fault(const struct refused *refused, struct text *cause);

#endif
