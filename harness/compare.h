/* A card's memory and registers beside those that the reference leaves. */
#ifndef COMPARE_H
#define COMPARE_H

#include <stdbool.h>
#include <stddef.h>
#include <stdint.h>

#include "diagnose.h"
#include "differing.h"
#include "files.h"
#include "finding.h"
#include "result.h"

/* What carrying out a sheet on a memory leaves. The bytes are lent. */
struct reference {
    struct bytes sheet;
    struct bytes memory;
    struct result result;
    struct origins origins;
    struct shown shown;
    struct differing differing; /* of the card that was compared last */
};

/* Bytes that differ, next to each other, which the same step stores, or none does. */
struct run {
    size_t first;
    size_t end;
};

/* Carries a sheet out on a memory, in place. False if it is refused: see its answer. */
bool carry_reference(struct reference *reference, struct bytes sheet, struct bytes memory);

/* What is refused, for a sheet that is. */
struct refused refused_reference(const struct reference *reference);

/* Finds the first run of bytes that differ from byte `from` on. The card's memory has the
 * reference's length. */
bool find_run(const struct reference *reference, const uint8_t *after, size_t from, struct run *run);

/* A register: its type and its elements. */
struct matrix {
    const uint8_t *type;
    const uint32_t *elements;
};

struct matrix matrix_of(const struct result *result, unsigned reg);

/* Finds the first element that differs from element `from` on, in registers of the same type. */
bool find_element(const struct matrix *wants, const struct matrix *has, size_t from, size_t *element);

/* Finds the first difference in one register. */
bool compare_register(const struct reference *reference, const struct result *registers, unsigned reg,
                      struct register_difference *difference);

/* Compares a card's memory, and its registers unless they are NULL. The counts get how many elements of each sort of
 * the reference's census differ. */
void compare_card(struct reference *reference, const uint8_t *after, const struct result *registers,
                  struct finding *finding, uint32_t *counts);

#endif
