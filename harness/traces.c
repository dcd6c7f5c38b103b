#include "traces.h"

#include <inttypes.h>

#include "fields.h"
#include "moonbleat.h"
#include "steps.h"

struct entry entry_of(const uint8_t *content)
{
    return (struct entry){
        .step = little(content, 2),
        .element = little(content + 2, 2),
        .sort = content[4],
        .byte = little(content + 5, 4),
    };
}

struct entry entry_at(const uint8_t *trace, size_t index)
{
    return entry_of(trace + MOONBLEAT_ACCESS_BYTES * index + HEAD_BYTES);
}

const char *sort_name(uint32_t sort)
{
    static const char *const names[] = {
        [MOONBLEAT_SORT_SKIPPED] = "skipped",
        [MOONBLEAT_SORT_FILLED] = "filled",
        [MOONBLEAT_SORT_DISCARDED] = "discarded",
        [MOONBLEAT_SORT_BYTE] = "byte",
    };
    return sort < sizeof names / sizeof names[0] ? names[sort] : NULL;
}

void add_sort_words(struct text *text, uint32_t sort, uint32_t byte)
{
    const char *name = sort_name(sort);
    add_text(text, "%s", name == NULL ? "of no known sort" : name);
    if (sort == MOONBLEAT_SORT_BYTE) {
        add_text(text, " %" PRIu32, byte);
    }
}

void add_entry(struct text *text, const struct refused *traced, const struct entry *entry)
{
    struct step step;
    add_text(text, "step %" PRIu32, entry->step);
    if (find_step(traced, entry->step, &step)) {
        add_text(text, " (%s)", step.field.form->name);
    }
    add_text(text, ", element %" PRIu32 ": ", entry->element);
    add_sort_words(text, entry->sort, entry->byte);
}

void json_accesses(struct json *json, const uint8_t *trace, size_t count)
{
    json_open(json, "accesses", '[');
    for (size_t i = 0; i < count; i++) {
        struct entry entry = entry_at(trace, i);
        json_entry(json, NULL, &entry);
    }
    json_close(json, ']');
}

bool is_trace_length(const char *name, const struct bytes *file)
{
    if (file->len > TRACE_FILE_MAX) {
        complain_of(name, "longer than %d bytes", TRACE_FILE_MAX);
    }
    return file->len <= TRACE_FILE_MAX;
}

void json_entry(struct json *json, const char *key, const struct entry *entry)
{
    json_open(json, key, '{');
    json_number(json, "step", entry->step);
    json_number(json, "element", entry->element);
    json_text(json, "sort", sort_name(entry->sort));
    if (entry->sort == MOONBLEAT_SORT_BYTE) {
        json_number(json, "byte", entry->byte);
    } else {
        json_null(json, "byte");
    }
    json_close(json, '}');
}
