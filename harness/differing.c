#include "differing.h"

#include <string.h>

void clear_differing(struct differing *differing)
{
    memset(differing, 0, sizeof *differing);
}

/* Marks the elements whose shadow lies on a byte. */
static bool mark_shadows(struct differing *differing, const struct shown *shown, size_t byte)
{
    bool found = false;
    for (unsigned shadow = 0; shadow < SHADOWS; shadow++) {
        const struct shadow_byte *cast = &shown->bytes[shadow][byte];
        if (cast->by != 0) {
            differing->shadows[shadow][cast->by - 1][cast->element] = true;
            found = true;
        }
    }
    return found;
}

void mark_byte(struct differing *differing, const struct origins *origins, const struct shown *shown, size_t byte)
{
    const struct stored *stored = &origins->bytes[byte];
    if (stored->by != 0) {
        differing->stored[stored->by - 1][stored->element] = true;
    } else if (!mark_shadows(differing, shown, byte)) {
        differing->strays++;
    }
}

void mark_element(struct differing *differing, unsigned reg, size_t element)
{
    differing->registers[reg][element] = true;
}

void mark_stray(struct differing *differing)
{
    differing->strays++;
}

/* -- All that is shown ------------------------------------------------------------------------ */

/* A matrix that is shown, and what differs in it. */
struct pane {
    const uint16_t *sorts;
    const bool *differs;
    unsigned step; /* that made its elements, or must leave them out */
};

/* The panes of stores, of what they leave out, and of registers; false if there is none of a number. */
enum { PANES = (1 + SHADOWS) * MOONBLEAT_STEPS_MAX + MOONBLEAT_REGISTERS };

static bool get_pane(const struct differing *differing, const struct origins *origins, const struct shown *shown,
                     unsigned number, struct pane *pane)
{
    unsigned step = number % MOONBLEAT_STEPS_MAX, layer = number / MOONBLEAT_STEPS_MAX;
    if (layer > SHADOWS) {
        unsigned giver = origins->givers[step];
        *pane = (struct pane){shown->registers[step], differing->registers[step], giver - 1};
        return giver != 0;
    }
    if (step >= origins->step_count || origins->steps[step].field.tag != MOONBLEAT_TAG_STORE) {
        return false;
    }
    if (layer == 0) {
        *pane = (struct pane){shown->stored[step], differing->stored[step], origins->steps[step].giver};
    } else {
        *pane = (struct pane){shown->shadows[layer - 1][step], differing->shadows[layer - 1][step], step};
    }
    return true;
}

static unsigned pane_elements(const struct origins *origins, const struct pane *pane)
{
    return type_element_count(origins->steps[pane->step].type);
}

void count_differing(const struct differing *differing, const struct origins *origins, const struct shown *shown,
                     uint32_t *counts)
{
    struct pane pane;
    memset(counts, 0, shown->census.count * sizeof counts[0]);
    counts[STRAYS] = differing->strays;
    for (unsigned i = 0; i < PANES; i++) {
        if (!get_pane(differing, origins, shown, i, &pane)) {
            continue;
        }
        for (unsigned e = 0; e < pane_elements(origins, &pane); e++) {
            if (pane.differs[e] && pane.sorts[e] != 0) {
                counts[pane.sorts[e] - 1]++;
            }
        }
    }
}

/* The first element of a pane that differs, or how many it has. */
static unsigned first_differing(const struct origins *origins, const struct pane *pane)
{
    unsigned element = 0, count = pane_elements(origins, pane);
    while (element < count && !(pane->differs[element] && pane->sorts[element] != 0)) {
        element++;
    }
    return element;
}

static void set_lead(struct lead *lead, const struct origins *origins, const struct shown *shown,
                     const struct pane *pane, unsigned element)
{
    const struct step_origin *step = &origins->steps[pane->step];
    unsigned columns = step->type[MOONBLEAT_TYPE_COLUMNS];
    *lead = (struct lead){
        .there = 1,
        .step = pane->step,
        .tag = step->field.tag,
        .reg = step->reg,
        .element = element,
        .row = element / columns,
        .column = element % columns,
        .traits = shown->census.at[pane->sorts[element] - 1].traits,
    };
}

void find_lead(const struct differing *differing, const struct origins *origins, const struct shown *shown,
               struct lead *lead)
{
    struct pane pane;
    *lead = (struct lead){.there = 0};
    for (unsigned i = 0; i < PANES; i++) {
        if (!get_pane(differing, origins, shown, i, &pane) || (lead->there != 0 && pane.step > lead->step)) {
            continue;
        }
        unsigned element = first_differing(origins, &pane);
        bool is_earlier = lead->there == 0 || pane.step < lead->step || element < lead->element;
        if (element < pane_elements(origins, &pane) && is_earlier) {
            set_lead(lead, origins, shown, &pane, element);
        }
    }
}

static void map_pane(const struct pane *pane, struct map *map)
{
    for (unsigned i = 0; i < map->rows * map->columns; i++) {
        if (pane->sorts[i] != 0 && map->cells[i] != CELL_DIFFERS) {
            map->cells[i] = pane->differs[i] ? CELL_DIFFERS : CELL_AGREES;
        }
    }
}

void map_lead(const struct differing *differing, const struct origins *origins, const struct shown *shown,
              bool has_registers, const struct lead *lead, struct map *map)
{
    const uint8_t *type = origins->steps[lead->step].type;
    struct pane pane;
    map->rows = type[MOONBLEAT_TYPE_ROWS];
    map->columns = type[MOONBLEAT_TYPE_COLUMNS];
    memset(map->cells, CELL_ELSEWHERE, map->rows * map->columns);
    for (unsigned i = 0; i < PANES; i++) {
        bool is_register = i >= (1 + SHADOWS) * MOONBLEAT_STEPS_MAX;
        bool is_there = get_pane(differing, origins, shown, i, &pane) && pane.step == lead->step;
        if (is_there && (has_registers || !is_register)) {
            map_pane(&pane, map);
        }
    }
    if (lead->tag == MOONBLEAT_TAG_STORE) {
        pane = (struct pane){shown->stored[lead->step], differing->stored[lead->step], lead->step};
        map_pane(&pane, map);
    }
}
