/* Lists of names, each once. */
#ifndef LIST_H
#define LIST_H

#include <stdbool.h>
#include <stddef.h>

/* All zeros is the empty list; to be freed with free_list. */
struct list {
    char **at;
    size_t count;
    size_t room;
};

/* Adds the first `len` bytes of a name; false if memory runs out. The list never takes more than twice
 * the room of its different names, however often they are added. */
bool add_to_list(struct list *list, const char *name, size_t len);

/* Sorts the names by their bytes and keeps each once. */
void sort_list(struct list *list);

/* Finds the number of a name in a sorted list; false if it is not there. */
bool find_in_list(const struct list *list, const char *name, size_t *number);

void free_list(struct list *list);

#endif
