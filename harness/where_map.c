/* The map of a load or a store. */
#include <inttypes.h>
#include <limits.h>
#include <stdarg.h>
#include <stdio.h>

#include "where.h"

/* The signs of elements without a byte. */
static const char *const signs[] = {
    [MOONBLEAT_SORT_SKIPPED] = ".", [MOONBLEAT_SORT_FILLED] = "#", [MOONBLEAT_SORT_DISCARDED] = "x"};

/* The signs of sides. */
static const char side_signs[] = {[MOONBLEAT_SIDE_BELOW] = '<', [MOONBLEAT_SIDE_ABOVE] = '>'};

enum { SORTS = MOONBLEAT_SORT_BYTE + 1, SIDES = MOONBLEAT_SIDE_ABOVE + 1 };

/* How many elements are of each sort, and on each side of each dimension; the bits of those that are
 * filled, which all get the same. */
struct totals {
    unsigned sorts[SORTS];
    unsigned sides[DIMENSIONS_MAX][SIDES];
    uint32_t bits;
};

/* The widths of a cell's two parts: its byte or sign, and its side. */
struct widths {
    size_t value;
    size_t side;
};

/* -- Cells ------------------------------------------------------------------------------------- */

static struct text value_text(const struct told *told)
{
    uint32_t sort = told->numbers[MOONBLEAT_OUTCOME_SORT];
    struct text text = {.len = 0};
    if (sort == MOONBLEAT_SORT_BYTE) {
        add_text(&text, "%" PRIu32, told->numbers[MOONBLEAT_OUTCOME_VALUE]);
    } else {
        add_text(&text, "%s", signs[sort]);
    }
    return text;
}

static struct text side_text(uint32_t dimension, uint32_t side)
{
    struct text text = {.len = 0};
    if (side != MOONBLEAT_SIDE_INSIDE) {
        add_text(&text, "%c%" PRIu32, side_signs[side], dimension);
    }
    return text;
}

static struct text cell_side(const struct told *told)
{
    return side_text(told->numbers[MOONBLEAT_OUTCOME_DIMENSION], told->numbers[MOONBLEAT_OUTCOME_SIDE]);
}

static size_t larger(size_t one, size_t other)
{
    return one > other ? one : other;
}

/* A cell has room for the widest, and for its column's number above it. */
static struct widths cell_widths(const struct where *where, const struct told *outcomes)
{
    struct text column = {.len = 0};
    add_text(&column, "%u", where->access.columns - 1);
    struct widths widths = {column.len, 0};
    for (unsigned i = 0; i < element_count(where); i++) {
        widths.value = larger(widths.value, value_text(&outcomes[i]).len);
        widths.side = larger(widths.side, cell_side(&outcomes[i]).len);
    }
    return widths;
}

static void add_cell(struct text *line, const struct widths *widths, const char *value, const char *side)
{
    add_text(line, " %*s%-*s", (int)widths->value, value, (int)widths->side, side);
}

/* Prints a line without the blanks behind it. */
static void print_line(const struct text *line)
{
    size_t len = line->len;
    while (len > 0 && line->at[len - 1] == ' ') {
        len--;
    }
    printf("%.*s\n", (int)len, line->at);
}

static void print_columns(const struct where *where, const struct widths *widths)
{
    struct text line = {.len = 0};
    add_text(&line, "col   ");
    for (unsigned column = 0; column < where->access.columns; column++) {
        struct text number = {.len = 0};
        add_text(&number, "%u", column);
        add_cell(&line, widths, number.at, "");
    }
    print_line(&line);
}

static void print_rows(const struct where *where, const struct widths *widths, const struct told *outcomes)
{
    for (unsigned row = 0; row < where->access.rows; row++) {
        struct text line = {.len = 0};
        add_text(&line, "row %-2u", row);
        for (unsigned column = 0; column < where->access.columns; column++, outcomes++) {
            add_cell(&line, widths, value_text(outcomes).at, cell_side(outcomes).at);
        }
        print_line(&line);
    }
}

/* -- What the signs mean ------------------------------------------------------------------------ */

__attribute__((format(printf, 2, 3))) static void explain(const char *sign, const char *format, ...)
{
    va_list arguments;
    va_start(arguments, format);
    printf("  %-8s", sign);
    vprintf(format, arguments);
    putchar('\n');
    va_end(arguments);
}

static struct totals totals_of(const struct told *outcomes, unsigned count)
{
    struct totals totals = {.sorts = {0}};
    for (unsigned i = 0; i < count; i++) {
        const uint32_t *numbers = outcomes[i].numbers;
        totals.sorts[numbers[MOONBLEAT_OUTCOME_SORT]]++;
        totals.sides[numbers[MOONBLEAT_OUTCOME_DIMENSION]][numbers[MOONBLEAT_OUTCOME_SIDE]]++;
        if (numbers[MOONBLEAT_OUTCOME_SORT] == MOONBLEAT_SORT_FILLED) {
            totals.bits = numbers[MOONBLEAT_OUTCOME_VALUE];
        }
    }
    return totals;
}

/* What becomes of a skipped element. */
static const char *skipped_words(const struct where *where)
{
    if (where->access.is_store) {
        return "not stored";
    }
    bool zeros = start_of(&where->step.values) == FROM_ZEROS;
    return zeros ? "keeps the 0 that the load starts from" : "keeps what the object has";
}

static void explain_sorts(const struct where *where, const struct totals *totals)
{
    const struct access *access = &where->access;
    if (totals->sorts[MOONBLEAT_SORT_BYTE] > 0) {
        explain("number", access->size > 1 ? "its first byte in memory" : "its byte in memory");
    }
    if (totals->sorts[MOONBLEAT_SORT_SKIPPED] > 0) {
        explain(signs[MOONBLEAT_SORT_SKIPPED], "skipped: outside the clip, %s", skipped_words(where));
    }
    if (totals->sorts[MOONBLEAT_SORT_FILLED] > 0) {
        struct text fill = {.len = 0};
        add_fill(&fill, access->kind, totals->bits);
        explain(signs[MOONBLEAT_SORT_FILLED], "filled with %s: outside the tensor", fill.at);
    }
    if (totals->sorts[MOONBLEAT_SORT_DISCARDED] > 0) {
        explain(signs[MOONBLEAT_SORT_DISCARDED], "discarded: outside the tensor, not stored");
    }
}

static void explain_sides(const struct access *access, const struct totals *totals)
{
    for (unsigned i = 0; i < access->layout.count; i++) {
        if (totals->sides[i][MOONBLEAT_SIDE_BELOW] > 0) {
            explain(side_text(i, MOONBLEAT_SIDE_BELOW).at, "below in dimension %u, the first outside: under 0", i);
        }
        if (totals->sides[i][MOONBLEAT_SIDE_ABOVE] > 0) {
            explain(side_text(i, MOONBLEAT_SIDE_ABOVE).at,
                    "above in dimension %u, the first outside: past %" PRId64, i,
                    access->layout.dimensions[i].size - 1);
        }
    }
}

/* -- The summary and the mask -------------------------------------------------------------------- */

/* Adds a count to a list, behind a comma if it is not the first; 0 is left out. */
static void add_count(struct text *list, unsigned count, const char *what)
{
    if (count > 0) {
        add_text(list, "%s%u %s", list->len > 0 ? ", " : "", count, what);
    }
}

static struct text sort_list(const struct totals *totals)
{
    struct text list = {.len = 0};
    add_count(&list, totals->sorts[MOONBLEAT_SORT_BYTE], "with a byte");
    add_count(&list, totals->sorts[MOONBLEAT_SORT_FILLED], "filled");
    add_count(&list, totals->sorts[MOONBLEAT_SORT_DISCARDED], "discarded");
    add_count(&list, totals->sorts[MOONBLEAT_SORT_SKIPPED], "skipped");
    return list;
}

static struct text side_list(const struct totals *totals)
{
    struct text list = {.len = 0};
    for (unsigned i = 0; i < DIMENSIONS_MAX; i++) {
        for (uint32_t side = MOONBLEAT_SIDE_BELOW; side < SIDES; side++) {
            struct text what = {.len = 0};
            add_text(&what, "%s in dimension %u", side_name(side), i);
            add_count(&list, totals->sides[i][side], what.at);
        }
    }
    return list;
}

static void print_summary(const struct where *where, const struct totals *totals)
{
    unsigned count = element_count(where);
    struct text sides = side_list(totals);
    printf("%u element%s: %s; %s\n", count, plural(count), sort_list(totals).at,
           sides.len > 0 ? sides.at : "none outside");
}

/* The bytes of the masks that have the matrix's elements, and the mask's count. */
static void print_mask(const struct where *where)
{
    const uint8_t *masks = where->translation->masks;
    uint32_t first = MOONBLEAT_MASK_BYTES * where->number, last = first + (element_count(where) - 1) / CHAR_BIT;
    if (!has_masks(where)) {
        printf("mask: %s\n", no_mask(where).at);
        return;
    }
    printf("mask, byte%s %" PRIu32, plural(last - first + 1), first);
    if (last > first) {
        printf(" to %" PRIu32, last);
    }
    putchar(':');
    for (uint32_t i = first; i <= last; i++) {
        printf(" %02X", masks[i]);
    }
    printf("; %" PRIu32 " set\n", little(masks + first + MOONBLEAT_MASK_COUNT, 2));
}

void print_map(const struct where *where, const struct told *outcomes)
{
    struct widths widths = cell_widths(where, outcomes);
    struct totals totals = totals_of(outcomes, element_count(where));
    putchar('\n');
    print_columns(where, &widths);
    print_rows(where, &widths, outcomes);
    putchar('\n');
    explain_sorts(where, &totals);
    explain_sides(&where->access, &totals);
    putchar('\n');
    print_summary(where, &totals);
    print_mask(where);
}
