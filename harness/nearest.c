#include "nearest.h"

#include <ctype.h>
#include <stdbool.h>
#include <string.h>

/* No word that is known is longer. */
enum { WORD_MAX = 24, LETTERS_A_FAULT = 3 };

static bool is_same(char one, char other)
{
    return tolower((unsigned char)one) == tolower((unsigned char)other);
}

static size_t least(size_t one, size_t other)
{
    return one < other ? one : other;
}

/* How many faults, at least, make one word of the other: letters that are wrong, lacking, too much, or exchanged
 * with their neighbours. Row i of the table is for the first i letters of one; the last three rows are kept. */
static size_t count_faults(const char *one, size_t one_len, const char *other, size_t other_len)
{
    size_t rows[3][WORD_MAX + 1];
    for (size_t i = 0; i <= one_len; i++) {
        size_t *row = rows[i % 3], *before = rows[(i + 2) % 3], *earlier = rows[(i + 1) % 3];
        for (size_t j = 0; j <= other_len; j++) {
            if (i == 0 || j == 0) {
                row[j] = i + j;
                continue;
            }
            row[j] = least(least(before[j], row[j - 1]) + 1, before[j - 1] + !is_same(one[i - 1], other[j - 1]));
            if (i > 1 && j > 1 && is_same(one[i - 1], other[j - 2]) && is_same(one[i - 2], other[j - 1])) {
                row[j] = least(row[j], earlier[j - 2] + 1);
            }
        }
    }
    return rows[one_len % 3][other_len];
}

struct nearest nearest_to(const char *word, size_t len)
{
    return (struct nearest){word, len, NULL, 0};
}

void consider(struct nearest *nearest, const char *known)
{
    size_t len = strlen(known);
    if (nearest->len > WORD_MAX || len > WORD_MAX) {
        return;
    }
    size_t longer = nearest->len > len ? nearest->len : len;
    size_t distance = count_faults(nearest->word, nearest->len, known, len);
    if (distance <= longer / LETTERS_A_FAULT && (nearest->found == NULL || distance < nearest->distance)) {
        nearest->found = known;
        nearest->distance = distance;
    }
}

void add_nearest(struct text *text, const struct nearest *nearest, const char *quote)
{
    if (nearest->found != NULL) {
        add_text(text, "; did you mean %s%s%s?", quote, nearest->found, quote);
    }
}
