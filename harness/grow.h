/* Arrays that grow by one thing at a time. */
#ifndef GROW_H
#define GROW_H

#include <stddef.h>

/* Makes room for one thing more behind `count` of some size; gives the array, which may have moved, or NULL if memory
 * runs out, and then it stays as it is. */
void *grow(void *array, size_t count, size_t *room, size_t size);

#endif
