/* The numbers of a JSON report's objects: writing and reading go by these tables. */
#ifndef REPORT_FIELDS_H
#define REPORT_FIELDS_H

#include <stddef.h>

/* What the first two keys say. A report of another format is not read. */
#define REPORT_TITLE "moonbleat night"
enum { REPORT_FORMAT = 2 };

/* A number of 32 bits and its key in an object. */
struct number_field {
    const char *key;
    size_t offset;
};

struct number_fields {
    const struct number_field *at;
    size_t count;
};

extern const struct number_fields shard_fields, refusal_fields, lead_fields, memory_fields, register_fields,
    trace_fields, claim_fields;

#endif
