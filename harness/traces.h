/* Traces: what becomes of each element of a sheet's loads and stores, one field each. */
#ifndef TRACES_H
#define TRACES_H

#include <stddef.h>
#include <stdint.h>

#include "diagnose.h"
#include "files.h"
#include "json.h"
#include "text.h"

/* The numbers of a field. */
struct entry {
    uint32_t step;
    uint32_t element;
    uint32_t sort;
    uint32_t byte;
};

/* The numbers in a field's content. */
struct entry entry_of(const uint8_t *content);

/* Those of the field with an index; all fields of a trace have one length. */
struct entry entry_at(const uint8_t *trace, size_t index);

/* The name of a sort, as "skipped"; NULL if it has none. */
const char *sort_name(uint32_t sort);

/* Adds what becomes of an element: "byte 340", or the name of its sort. */
void add_sort_words(struct text *text, uint32_t sort, uint32_t byte);

/* Adds "step 3 (load), element 17: byte 340"; a step that the sheet lacks has no name. */
void add_entry(struct text *text, const struct refused *traced, const struct entry *entry);

/* The same as an object. */
void json_entry(struct json *json, const char *key, const struct entry *entry);

/* The first accesses of a trace as an array of such objects. */
void json_accesses(struct json *json, const uint8_t *trace, size_t count);

/* A trace is judged to its end, and none of a sheet's is longer than MOONBLEAT_TRACE_MAX: files of
 * more than 64 megabytes are no traces of cards. */
enum { TRACE_FILE_MAX = 1 << 26 };

/* Whether a file, read to one byte more at most, is not longer; else says so on standard error. */
bool is_trace_length(const char *name, const struct bytes *file);

#endif
