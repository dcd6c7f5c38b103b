#include "grid.h"

#include <string.h>

const char *verdict_sign(unsigned verdict)
{
    static const char *const signs[VERDICTS] = {
        [VERDICT_AGREES] = "&#10003;", [VERDICT_DIFFERS] = "&#10007;",    [VERDICT_MISSING] = "&#8211;",
        [VERDICT_REFUSED] = "R",       [VERDICT_UNREADABLE] = "?",
    };
    return signs[verdict];
}

void put_sign(FILE *file, unsigned verdict)
{
    fprintf(file, "<span class=\"sign %s\" role=\"img\" aria-label=\"%s\">%s</span>", verdict_name(verdict),
            verdict_name(verdict), verdict_sign(verdict));
}

/* A sign that leads to a difference. */
static void put_link(const struct grid *grid, const char *card, const char *sheet, size_t difference)
{
    const struct sink sink = {grid->file, put_html};
    fprintf(grid->file, "<a class=\"sign differs\" href=\"#d%zu\" aria-label=\"", difference);
    put_name(&sink, card);
    fputs(" differs on ", grid->file);
    put_name(&sink, sheet);
    fprintf(grid->file, "\">%s</a>", verdict_sign(VERDICT_DIFFERS));
}

static void put_cells(const struct grid *grid, const struct night *night, size_t row)
{
    size_t difference = grid->differences[row];
    for (size_t i = 0; i < night->cards->count; i++) {
        fputs("<td>", grid->file);
        if (grid->verdicts[i] == VERDICT_DIFFERS) {
            put_link(grid, night->cards->at[i], grid->names[row], difference++);
        } else {
            put_sign(grid->file, grid->verdicts[i]);
        }
        fputs("</td>", grid->file);
    }
    fputs("</tr>\n", grid->file);
}

/* One row for a run of sheets; its signs lead to the differences of the first. */
static void put_run(const struct grid *grid, const struct night *night)
{
    const struct sink sink = {grid->file, put_html};
    fputs("<tr class=\"run\"><th>", grid->file);
    put_name(&sink, grid->names[0]);
    fputs(" to ", grid->file);
    put_name(&sink, grid->last);
    fprintf(grid->file, "<span class=\"count\">, %zu sheets</span></th>", grid->run);
    put_cells(grid, night, 0);
}

void end_grid(struct grid *grid, const struct night *night)
{
    if (grid->run >= RUN_MIN) {
        put_run(grid, night);
    }
    for (size_t i = 0; grid->run < RUN_MIN && i < grid->run; i++) {
        fputs("<tr><th>", grid->file);
        put_name(&(struct sink){grid->file, put_html}, grid->names[i]);
        fputs("</th>", grid->file);
        put_cells(grid, night, i);
    }
    grid->run = 0;
}

static bool is_alike(const struct grid *grid, const struct night *night, const struct finding *findings)
{
    for (size_t i = 0; i < night->cards->count; i++) {
        if (grid->verdicts[i] != findings[i].verdict) {
            return false;
        }
    }
    return true;
}

void put_grid_sheet(struct grid *grid, const struct night *night, const char *name, const struct finding *findings)
{
    if (!is_alike(grid, night, findings)) {
        end_grid(grid, night);
    }
    if (grid->run < RUN_MIN) {
        strcpy(grid->names[grid->run], name);
        grid->differences[grid->run] = grid->differing;
    }
    strcpy(grid->last, name);
    grid->run++;
    for (size_t i = 0; i < night->cards->count; i++) {
        grid->verdicts[i] = findings[i].verdict;
        grid->differing += findings[i].verdict == VERDICT_DIFFERS;
    }
}
