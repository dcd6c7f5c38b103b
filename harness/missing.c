#include "missing.h"

#include <stdio.h>
#include <string.h>

/* Whether a folder has a file of a sheet, or of a sheet and a card. */
static bool has_part(const struct folder *folder, const char *name, const char *card, enum part part)
{
    struct text file = {.len = 0};
    add_part_name(&file, name, card, part);
    return is_there(&folder->location, file.at);
}

/* Whether a sheet can be run: it is there, as bytes or as text, and so is its memory. */
static bool can_be_run(const struct folder *folder, const char *name)
{
    return (has_part(folder, name, NULL, PART_SHEET) || has_part(folder, name, NULL, PART_TEXT)) &&
           has_part(folder, name, NULL, PART_MEMORY);
}

static bool has_result(const struct folder *folder, const char *name, const char *card)
{
    return has_part(folder, name, card, PART_AFTER) || has_part(folder, name, card, PART_REFUSAL);
}

/* Whether a line can hold a name between tabs. */
static bool fits_line(const char *name)
{
    return strpbrk(name, "\t\n") == NULL;
}

static bool print_pair(const char *name, const char *card, bool ends_with_nul)
{
    if (!ends_with_nul && !(fits_line(name) && fits_line(card))) {
        fprintf(stderr, "moonbleat: a line cannot hold %s: ask for NUL bytes with -0\n",
                shown(fits_line(name) ? card : name).at);
        return false;
    }
    printf("%s\t%s%c", name, card, ends_with_nul ? '\0' : '\n');
    return true;
}

bool print_missing(const struct folder *folder, const struct list *cards, bool ends_with_nul)
{
    bool done = true;
    for (size_t i = 0; i < folder->sheets.count; i++) {
        const char *name = folder->sheets.at[i];
        for (size_t j = 0; can_be_run(folder, name) && j < cards->count; j++) {
            if (!has_result(folder, name, cards->at[j]) && !print_pair(name, cards->at[j], ends_with_nul)) {
                done = false;
            }
        }
    }
    return done;
}
