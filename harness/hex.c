#include "hex.h"

#include "origins.h"
#include "text.h"

enum { LINE_BYTES = 16, GROUP_BYTES = 2 };

static void print_line(const struct bytes *bytes, size_t at)
{
    printf("%08zx:", at);
    for (size_t i = 0; i < LINE_BYTES; i++) {
        fputs(i % GROUP_BYTES == 0 ? " " : "", stdout);
        if (at + i < bytes->len) {
            printf("%02x", (unsigned)bytes->at[at + i]);
        } else {
            fputs("  ", stdout);
        }
    }
    fputs("  ", stdout);
    for (size_t i = at; i < bytes->len && i < at + LINE_BYTES; i++) {
        putchar(bytes->at[i] >= ' ' && bytes->at[i] <= '~' ? bytes->at[i] : '.');
    }
    putchar('\n');
}

void print_hex(const struct bytes *bytes)
{
    for (size_t at = 0; at < bytes->len; at += LINE_BYTES) {
        print_line(bytes, at);
    }
}

/* The end of the bytes from one on that have the same writer. */
static size_t end_of_run(const struct origins *origins, size_t first, size_t len)
{
    size_t end = first + 1;
    while (end < len && stored_by(origins, end) == stored_by(origins, first)) {
        end++;
    }
    return end;
}

void print_writers(const uint8_t *sheet, size_t sheet_len, size_t memory_len)
{
    static struct origins origins;
    size_t unwritten = 0;
    trace_origins(sheet, sheet_len, memory_len, &origins);
    for (size_t first = 0, end; first < memory_len; first = end) {
        unsigned step = stored_by(&origins, first);
        end = end_of_run(&origins, first, memory_len);
        if (step == 0) {
            unwritten += end - first;
        } else if (end == first + 1) {
            printf("byte %zu: step %u (store)\n", first, step - 1);
        } else {
            printf("bytes %zu to %zu: step %u (store)\n", first, end - 1, step - 1);
        }
    }
    printf("no step writes %zu byte%s\n", unwritten, plural(unwritten));
}
