/* A sheet through its text and back, and the editions of those that were put through. */
#ifndef ROUND_TRIP_H
#define ROUND_TRIP_H

#include <stdbool.h>
#include <stdio.h>
#include <stdlib.h>
#include <string.h>

#include "asm.h"
#include "fields.h"
#include "moonbleat.h"
#include "sheet_text.h"

/* Whether the text of a sheet, refused or not, assembles to its bytes. */
static inline bool comes_back(const struct refused *sheet)
{
    static struct assembly assembly;
    char *text = NULL;
    size_t len = 0;
    FILE *file = open_memstream(&text, &len);
    if (file == NULL) {
        return false;
    }
    print_sheet_text(file, sheet);
    fclose(file);
    bool same = assemble(text, len, &assembly) && assembly.sheet.len == sheet->sheet_len &&
                memcmp(assembly.sheet.at, sheet->sheet, sheet->sheet_len) == 0;
    free_assembly(&assembly);
    free(text);
    return same;
}

/* Prints how many sheets of each edition there were; whether there was one of each. */
static inline bool print_editions(const size_t sheets[MOONBLEAT_EDITION_MAX + 1])
{
    bool all = true;
    for (unsigned edition = 1; edition <= MOONBLEAT_EDITION_MAX; edition++) {
        printf(", read in edition %u: %zu", edition, sheets[edition]);
        all &= sheets[edition] > 0;
    }
    return all;
}

#endif
