#include "question_faults.h"

#include <inttypes.h>

#include "moonbleat.h"
#include "steps.h"

/* Adds what could be asked for. */
static void add_accesses(struct text *cause, const struct refused *refused)
{
    struct step step;
    const char *before = "; loads and stores: ";
    size_t start = cause->len;
    for (uint32_t i = 0; find_step(refused, i, &step); i++) {
        if (is_access(&step)) {
            add_text(cause, "%s%" PRIu32 " (%s)", before, i, step.field.form->name);
            before = ", ";
        }
    }
    if (cause->len == start) {
        add_text(cause, "%snone", before);
    }
}

static uint32_t count_steps(const struct refused *refused)
{
    struct step step;
    uint32_t count = 0;
    while (find_step(refused, count, &step)) {
        count++;
    }
    return count;
}

static bool find_element_fault(const struct refused *refused, struct step *step, struct text *cause)
{
    struct access access;
    uint32_t element = refused->answer[MOONBLEAT_SECOND_PLACE];
    if (!find_types(refused, step) || !find_access(refused, step, &access)) {
        return false;
    }
    add_text(cause, "%s: the matrix is %u by %u, elements 0 to %u", step->field.form->name, access.rows,
             access.columns, access.rows * access.columns - 1);
    return element >= access.rows * access.columns;
}

static void add_steps(struct text *cause, const struct refused *refused)
{
    uint32_t count = count_steps(refused);
    if (count == 0) {
        add_text(cause, "the sheet has no steps");
        return;
    }
    add_text(cause, "the sheet has %" PRIu32 " step%s, from 0 on", count, plural(count));
    add_accesses(cause, refused);
}

bool find_question_fault(const struct refused *refused, struct text *cause)
{
    struct step step;
    if (refused->answer[MOONBLEAT_NUMBER] != MOONBLEAT_REFUSED_NUMBER) {
        return false;
    }
    if (!find_step(refused, refused->answer[MOONBLEAT_PLACE], &step)) {
        add_steps(cause, refused);
        return true;
    }
    if (!is_access(&step)) {
        add_text(cause, "%s is no load or store", step.field.form->name);
        add_accesses(cause, refused);
        return true;
    }
    return find_element_fault(refused, &step, cause);
}
