#define _POSIX_C_SOURCE 200809L

#include "list.h"

#include <stdlib.h>
#include <string.h>

/* The room that a list gets first. */
enum { FIRST_ROOM = 16 };

/* Makes room for one name more: that of names that are there twice, or else new room. */
static bool make_room(struct list *list)
{
    sort_list(list);
    if (list->count < list->room / 2) {
        return true;
    }
    size_t room = list->room == 0 ? FIRST_ROOM : 2 * list->room;
    char **at = realloc(list->at, room * sizeof list->at[0]);
    if (at == NULL) {
        return false;
    }
    list->at = at;
    list->room = room;
    return true;
}

bool add_to_list(struct list *list, const char *name, size_t len)
{
    if (list->count == list->room && !make_room(list)) {
        return false;
    }
    list->at[list->count] = strndup(name, len);
    return list->at[list->count] != NULL && ++list->count > 0;
}

static int compare_names(const void *one, const void *other)
{
    return strcmp(*(char *const *)one, *(char *const *)other);
}

void sort_list(struct list *list)
{
    if (list->count == 0) {
        return;
    }
    qsort(list->at, list->count, sizeof list->at[0], compare_names);
    size_t kept = 1;
    for (size_t i = 1; i < list->count; i++) {
        if (strcmp(list->at[i], list->at[kept - 1]) == 0) {
            free(list->at[i]);
        } else {
            list->at[kept++] = list->at[i];
        }
    }
    list->count = kept;
}

bool find_in_list(const struct list *list, const char *name, size_t *number)
{
    char **found =
        list->count == 0 ? NULL : bsearch(&name, list->at, list->count, sizeof list->at[0], compare_names);
    *number = found == NULL ? 0 : (size_t)(found - list->at);
    return found != NULL;
}

void free_list(struct list *list)
{
    for (size_t i = 0; i < list->count; i++) {
        free(list->at[i]);
    }
    free(list->at);
    *list = (struct list){NULL, 0, 0};
}
