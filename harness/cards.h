/* A sheet's and its cards' files, read and judged. */
#ifndef CARDS_H
#define CARDS_H

#include <stdbool.h>
#include <stddef.h>
#include <stdint.h>

#include "compare.h"
#include "finding.h"
#include "refusals.h"

/* Room for a file of the night: one byte more than it may have tells that it is longer. */
struct room {
    uint8_t *at;
    size_t len;
};

/* A card's files as they were read. */
struct card_files {
    uint8_t after[MOONBLEAT_MEMORY_MAX + 1];
    struct result registers;
    bool has_registers;
    uint8_t trace[MOONBLEAT_TRACE_MAX + 1];
};

/* Their names; NULL: it is not given. */
struct card_names {
    const char *after;
    const char *registers;
    const char *trace;
    const char *refusal;
};

/* Where names of files are looked up. */
struct location {
    int folder;
    bool regular_only; /* a pipe is not read: nobody may ever write to it */
};

/* Whether a file of that name is there; a link that leads nowhere is one. */
bool is_there(const struct location *location, const char *name);

/* Reads as much of a file as the room holds. On failure the finding says why. */
bool read_part(const struct location *location, const char *name, enum part part, struct room room, size_t *len,
               struct finding *finding);

/* Says that a file cannot be used. */
void set_unreadable(struct finding *finding, enum part part, const char *format, ...)
    __attribute__((format(printf, 3, 4)));

/* Says that the reference's sheet is refused. */
void set_refused(struct finding *finding, const struct refused *refused);

/* Reads the files of a card and compares them, as compare_card does; of a sheet that the reference accepts. A memory
 * that differs is a difference also where another file cannot be read. */
void judge_card(struct reference *reference, const struct location *location, const struct card_names *names,
                struct card_files *files, struct finding *finding, uint32_t *counts);

/* The same of one that it refuses with `refused`, which is the finding where the card left nothing. */
void judge_refusal(const struct finding *refused, const struct location *location, const struct card_names *names,
                   struct finding *finding, uint32_t *counts);

#endif
