#include "text.h"

#include <stdarg.h>
#include <stdio.h>

void add_text(struct text *text, const char *format, ...)
{
    va_list arguments;
    va_start(arguments, format);
    size_t room = TEXT_ROOM - text->len;
    int len = vsnprintf(text->at + text->len, room, format, arguments);
    va_end(arguments);
    if (len > 0) {
        text->len += (size_t)len < room ? (size_t)len : room - 1;
    }
}

const char *plural(size_t count)
{
    return count == 1 ? "" : "s";
}
