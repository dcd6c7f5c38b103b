/* Which of the elements that a sheet shows differ for a card: how many of each sort, and the earliest step that made
 * one of them. */
#ifndef DIFFERING_H
#define DIFFERING_H

#include "finding.h"
#include "result.h"
#include "shown.h"

/* By step, or by register, and element: whether it differs. */
typedef bool differing_matrix[MOONBLEAT_REGISTER_ELEMENTS];

struct differing {
    differing_matrix stored[MOONBLEAT_STEPS_MAX];
    differing_matrix shadows[SHADOWS][MOONBLEAT_STEPS_MAX];
    differing_matrix registers[MOONBLEAT_REGISTERS];
    uint32_t strays; /* bytes that no step writes or leaves out, and registers that none gives */
};

/* Marks nothing, what a byte of memory shows, or an element of a register. */
void clear_differing(struct differing *differing);
void mark_byte(struct differing *differing, const struct origins *origins, const struct shown *shown, size_t byte);
void mark_element(struct differing *differing, unsigned reg, size_t element);
void mark_stray(struct differing *differing);

/* Counts what is marked, for each sort of the census. */
void count_differing(const struct differing *differing, const struct origins *origins, const struct shown *shown,
                     uint32_t *counts);

/* Finds the first element of the earliest step that made, or must leave out, an element that is marked; and the map of
 * that step: which of its elements differ and agree by a memory, and by registers where they are given. */
void find_lead(const struct differing *differing, const struct origins *origins, const struct shown *shown,
               struct lead *lead);
void map_lead(const struct differing *differing, const struct origins *origins, const struct shown *shown,
              bool has_registers, const struct lead *lead, struct map *map);

#endif
