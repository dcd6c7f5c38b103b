#include "grow.h"

#include <stdlib.h>

/* The room that an array gets first. */
enum { FIRST_ROOM = 16 };

void *grow(void *array, size_t count, size_t *room, size_t size)
{
    if (count < *room) {
        return array;
    }
    size_t wanted = *room == 0 ? FIRST_ROOM : 2 * *room;
    void *grown = realloc(array, wanted * size);
    *room = grown == NULL ? *room : wanted;
    return grown;
}
