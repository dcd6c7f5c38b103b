#include "files.h"

#include <errno.h>
#include <stdarg.h>
#include <stdlib.h>
#include <string.h>

#include "names.h"

/* A file is read in pieces of at least this size. */
enum { PIECE = 4096 };

void complain_of(const char *name, const char *format, ...)
{
    va_list arguments;
    va_start(arguments, format);
    fputs("moonbleat: ", stderr);
    put_word(stderr, name);
    fputs(": ", stderr);
    vfprintf(stderr, format, arguments);
    fputc('\n', stderr);
    va_end(arguments);
}

void complain(const char *name)
{
    complain_of(name, "%s", strerror(errno));
}

FILE *open_input(const char *name)
{
    if (strcmp(name, STANDARD_STREAM) == 0) {
        return stdin;
    }
    FILE *file = fopen(name, "rb");
    if (file == NULL) {
        complain(name);
    }
    return file;
}

void close_input(FILE *file)
{
    if (file != stdin) {
        fclose(file);
    }
}

/* Makes room for at least one more byte, up to `limit`. */
static bool grow(struct bytes *bytes, size_t *room, size_t limit)
{
    if (bytes->len < *room) {
        return true;
    }
    size_t more = *room < PIECE ? PIECE : *room;
    size_t wanted = more < limit - *room ? *room + more : limit;
    uint8_t *at = realloc(bytes->at, wanted);
    if (at == NULL) {
        return false;
    }
    bytes->at = at;
    *room = wanted;
    return true;
}

static bool read_stream(FILE *file, size_t limit, struct bytes *bytes)
{
    size_t room = 0;
    while (bytes->len < limit) {
        if (!grow(bytes, &room, limit)) {
            return false;
        }
        size_t count = fread(bytes->at + bytes->len, 1, room - bytes->len, file);
        if (count == 0) {
            return !ferror(file);
        }
        bytes->len += count;
    }
    return true;
}

bool read_file(const char *name, size_t limit, struct bytes *bytes)
{
    *bytes = (struct bytes){NULL, 0};
    FILE *file = open_input(name);
    if (file == NULL) {
        return false;
    }
    bool done = read_stream(file, limit, bytes);
    if (!done) {
        complain(name);
        free(bytes->at);
        bytes->at = NULL;
    }
    close_input(file);
    return done;
}

bool read_memory(const char *name, struct bytes *memory)
{
    return read_file(name, MEMORY_LIMIT, memory);
}
