/* Tries the cases of a table by their numbers. */
#ifndef CASES_H
#define CASES_H

#include <stdbool.h>
#include <stddef.h>
#include <stdio.h>

/* Prints the name of each case that does not hold, then how many do; gives main's status. */
static int try_cases(const char *title, size_t count, bool (*holds)(size_t), const char *(*name_of)(size_t))
{
    size_t failed = 0;
    for (size_t i = 0; i < count; i++) {
        if (!holds(i)) {
            printf("FAILED: %s\n", name_of(i));
            failed++;
        }
    }
    printf("%s: %zu passed, %zu failed\n", title, count - failed, failed);
    return failed != 0;
}

#endif
