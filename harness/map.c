#include "map.h"

#include <inttypes.h>

/* In units of the drawing: a cell and the cross in it; the room for numbers on the left and above; how far a
 * number's foot is below its row's top, and above the first row. */
enum { CELL = 10, CROSS = 4, INSET = (CELL - CROSS) / 2, MARGIN = 12, ROW_FOOT = 7, COLUMN_FOOT = 3 };

/* So many pixels for so many units. */
enum { PIXELS = 3, UNITS = 2 };

static bool is_cell(const struct map *map, uint32_t row, uint32_t column, char cell)
{
    return column < map->columns && map->cells[row * map->columns + column] == cell;
}

/* The cells of one sort as one shape, a rectangle for those next to each other in a row. */
static void put_cells(FILE *file, const struct map *map, char cell, const char *class)
{
    fprintf(file, "<path class=\"%s\" d=\"", class);
    for (uint32_t row = 0; row < map->rows; row++) {
        for (uint32_t column = 0; column < map->columns; column++) {
            uint32_t end = column;
            while (is_cell(map, row, end, cell)) {
                end++;
            }
            if (end > column) {
                fprintf(file, "M%" PRIu32 " %" PRIu32 "h%" PRIu32 "v%dh-%" PRIu32 "z", MARGIN + CELL * column,
                        MARGIN + CELL * row, CELL * (end - column), CELL, CELL * (end - column));
                column = end;
            }
        }
    }
    fputs("\"/>", file);
}

/* A cross in each cell that differs, for those who see no colour. */
static void put_crosses(FILE *file, const struct map *map)
{
    fputs("<path class=\"m-cross\" d=\"", file);
    for (uint32_t row = 0; row < map->rows; row++) {
        for (uint32_t column = 0; column < map->columns; column++) {
            if (is_cell(map, row, column, CELL_DIFFERS)) {
                fprintf(file, "M%" PRIu32 " %" PRIu32 "l%d %dm0-%dl-%d %d", MARGIN + CELL * column + INSET,
                        MARGIN + CELL * row + INSET, CROSS, CROSS, CROSS, CROSS, CROSS);
            }
        }
    }
    fputs("\"/>", file);
}

static void put_lines(FILE *file, const struct map *map)
{
    fputs("<path class=\"m-lines\" d=\"", file);
    for (uint32_t row = 0; row <= map->rows; row++) {
        fprintf(file, "M%d %" PRIu32 "h%" PRIu32, MARGIN, MARGIN + CELL * row, CELL * map->columns);
    }
    for (uint32_t column = 0; column <= map->columns; column++) {
        fprintf(file, "M%" PRIu32 " %dv%" PRIu32, MARGIN + CELL * column, MARGIN, CELL * map->rows);
    }
    fputs("\"/>", file);
}

/* The numbers of rows and columns, in the middle of theirs. */
static void put_numbers(FILE *file, const struct map *map)
{
    for (uint32_t row = 0; row < map->rows; row++) {
        fprintf(file, "<text x=\"%d\" y=\"%" PRIu32 "\">%" PRIu32 "</text>", MARGIN / 2,
                MARGIN + CELL * row + ROW_FOOT, row);
    }
    for (uint32_t column = 0; column < map->columns; column++) {
        fprintf(file, "<text x=\"%" PRIu32 "\" y=\"%d\">%" PRIu32 "</text>", MARGIN + CELL * column + CELL / 2,
                MARGIN - COLUMN_FOOT, column);
    }
}

/* The lines and numbers around a map's cells, which later maps of the same sides refer to. */
static void put_frame(FILE *file, const struct map *map, struct frames *frames)
{
    bool *is_there = &frames->are_there[map->rows][map->columns];
    if (*is_there) {
        fprintf(file, "<use href=\"#f%" PRIu32 "x%" PRIu32 "\"/>", map->rows, map->columns);
        return;
    }
    fprintf(file, "<g id=\"f%" PRIu32 "x%" PRIu32 "\" class=\"m-frame\">", map->rows, map->columns);
    put_lines(file, map);
    put_numbers(file, map);
    fputs("</g>", file);
    *is_there = true;
}

static uint32_t count_cells(const struct map *map, char cell)
{
    uint32_t count = 0;
    for (uint32_t i = 0; i < map->rows * map->columns; i++) {
        count += map->cells[i] == cell;
    }
    return count;
}

void put_map(FILE *file, const struct map *map, struct frames *frames)
{
    uint32_t width = MARGIN + CELL * map->columns + 1, height = MARGIN + CELL * map->rows + 1;
    uint32_t differing = count_cells(map, CELL_DIFFERS), count = map->rows * map->columns;
    fprintf(file,
            "<figure><svg viewBox=\"0 0 %" PRIu32 " %" PRIu32 "\" width=\"%" PRIu32
            "\" role=\"img\" aria-label=\"%" PRIu32 " of %" PRIu32 " elements differ\">",
            width, height, width * PIXELS / UNITS, differing, count);
    put_cells(file, map, CELL_AGREES, "m-agrees");
    put_cells(file, map, CELL_ELSEWHERE, "m-elsewhere");
    put_cells(file, map, CELL_DIFFERS, "m-differs");
    put_crosses(file, map);
    put_frame(file, map, frames);
    fprintf(file, "</svg><figcaption>%" PRIu32 " of %" PRIu32 " elements differ</figcaption></figure>", differing,
            count);
}
