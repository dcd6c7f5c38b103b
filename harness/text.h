/* A line of text that is put together piece by piece. */
#ifndef TEXT_H
#define TEXT_H

#include <stddef.h>

enum { TEXT_ROOM = 512 };

/* All zeros is the empty text. What does not fit is cut off. */
struct text {
    char at[TEXT_ROOM];
    size_t len;
};

void add_text(struct text *text, const char *format, ...) __attribute__((format(printf, 2, 3)));

/* The end of a noun behind a count: "s", or nothing behind 1. */
const char *plural(size_t count);

#endif
