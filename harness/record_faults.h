/* What is wrong with a record of a tape: refusal 17. */
#ifndef RECORD_FAULTS_H
#define RECORD_FAULTS_H

#include "diagnose.h"

/* The cause of a refusal that names a record, or too many of them. */
bool find_record_fault(const struct refused *refused, struct text *cause);

#endif
