/* What is found when a card's files are held to the reference, and how it is said. */
#ifndef FINDING_H
#define FINDING_H

#include <stdbool.h>
#include <stddef.h>
#include <stdint.h>

#include "moonbleat.h"
#include "names.h"
#include "origins.h"
#include "text.h"
#include "traits.h"

/* For one sheet and one card. Only the first two are of the card; the others say why it could not
 * be judged. */
enum verdict { VERDICT_AGREES, VERDICT_DIFFERS, VERDICT_MISSING, VERDICT_REFUSED, VERDICT_UNREADABLE, VERDICTS };

/* The files that a verdict needs. */
enum part {
    PART_SHEET,
    PART_TEXT,
    PART_MEMORY,
    PART_AFTER,
    PART_REGISTERS,
    PART_TRACE,
    PART_REFUSAL,
    PARTS
};

/* The bytes of memory that differ. */
struct memory_difference {
    uint32_t bytes; /* how many; if 0, the rest is 0 too */
    uint32_t runs;
    uint32_t byte; /* the first of them */
    uint32_t wants;
    uint32_t has;
    uint32_t stored; /* 1 if some step stores to it: */
    struct origin origin;
};

/* A register as its type and one element. */
struct register_state {
    uint32_t kind;
    uint32_t rows;
    uint32_t columns;
    uint32_t use;
    uint32_t bits; /* of the element, where the types agree */
};

/* The registers that differ. */
struct register_difference {
    uint32_t registers; /* how many; if 0, the rest is 0 too */
    uint32_t reg;       /* the first of them */
    uint32_t typed;     /* 1 if the types agree, and this is its first element that differs: */
    uint32_t element;
    uint32_t given; /* 1 if some step gives the register its matrix: */
    uint32_t step;
    uint32_t tag;
    struct register_state wants;
    struct register_state has;
};

/* An access of a trace; a trace that has ended has none. */
struct access_state {
    uint32_t there;
    uint32_t step;
    uint32_t element;
    uint32_t sort;
    uint32_t byte;
};

/* Where a card's trace first differs. */
struct trace_difference {
    uint32_t differs; /* if 0, the rest is 0 too */
    uint32_t index;
    uint32_t wants_accesses;
    uint32_t has_accesses;
    struct access_state wants;
    struct access_state has;
};

/* What the reference and the card answer, where it is not the same: number and place, or zeros for a sheet that is
 * accepted. */
struct refusal_difference {
    uint32_t differs; /* if 0, the rest is 0 too */
    uint32_t wants[3];
    uint32_t has[3];
};

/* The first element that differs of the earliest step that made one, or, of a store, must leave one out. */
struct lead {
    uint32_t there; /* 0: no step has to do with what differs, and the rest is 0 too */
    uint32_t step;
    uint32_t tag;
    uint32_t reg;
    uint32_t element;
    uint32_t row;
    uint32_t column;
    struct traits traits;
};

/* The matrix of that step. */
enum cell { CELL_ELSEWHERE = '.', CELL_AGREES = '=', CELL_DIFFERS = 'x' };
struct map {
    uint32_t rows; /* 0: there is none */
    uint32_t columns;
    char cells[MOONBLEAT_REGISTER_ELEMENTS];
};

enum { SHOWS_MEMORY = 1, SHOWS_REGISTERS = 2 };

struct finding {
    uint32_t verdict;
    uint32_t part; /* of a missing or unreadable file */
    uint32_t refusal[3];
    uint32_t shows; /* what of the card was compared, SHOWS_ below */
    uint32_t sorts_at; /* of a card that differs: where its sorts stand in the night's spectrum, */
    uint32_t sorts;    /* .. and how many */
    struct lead lead;
    struct memory_difference memory;
    struct register_difference registers;
    struct trace_difference trace;
    struct refusal_difference claim;
    struct map map;
    char reason[TEXT_ROOM]; /* why a file is unreadable or the sheet refused */
};

/* How often each verdict was given. */
struct tally {
    size_t counts[VERDICTS];
};

/* "agrees", "differs", .. */
const char *verdict_name(unsigned verdict);

/* What follows the dots of a file's name, as "after". */
const char *part_suffix(unsigned part);

/* Whether a part is a file of the card's own; the others are the sheet's, and of all cards. */
bool is_cards_part(unsigned part);

/* The name of a file of the night: NAME.SUFFIX, or NAME.CARD.SUFFIX. */
void add_part_name(struct text *text, const char *name, const char *card, unsigned part);

/* Adds the earliest step and its element: "step 1 load r1, element 0 (0, 0), which MirrorRepeat clamps below in
 * dimension 0"; nothing where there is none. */
void add_lead(struct text *text, const struct lead *lead);

/* Adds where a byte comes from: "step 6 store r2, element 11 (0, 11), byte 0 of 4", or "no step writes
 * there" for NULL. */
void add_origin(struct text *text, const struct origin *origin);

/* Adds which step gives a register its matrix: "step 4 load r1", or "no step gives it". */
void add_giver(struct text *text, const struct register_difference *difference);

/* Adds one register's first difference: "register 1, element 3 (0, 3) wants 2, has 5; step 4 load r1". */
void add_register(struct text *text, const struct register_difference *difference);

/* Add the first difference, its origin and how much differs, "byte 300 wants 00, has 55; .."; nothing
 * where nothing differs. */
void add_memory_difference(struct text *text, const struct memory_difference *difference);
void add_register_difference(struct text *text, const struct register_difference *difference);
void add_trace_difference(struct text *text, const struct trace_difference *difference);
void add_refusal_difference(struct text *text, const struct refusal_difference *difference);

/* Whether anything of a card differs. */
bool has_difference(const struct finding *finding);

/* Adds what is wrong in words: the differences, or the reason; nothing for a card that agrees and a
 * file that is missing. */
void add_words(struct text *text, const struct finding *finding);

/* Writes what was found for a card: "differs: byte 300 ..". `file` is the one that is missing or
 * unreadable. */
void put_finding(const struct sink *sink, const struct finding *finding, const char *file);

/* The number of verdicts in a tally. */
size_t tally_sum(const struct tally *tally);

/* The exit status that a tally stands for: DIFFER if some card differs, else FAILED if a file is missing
 * or unreadable, else INPUT_REFUSED if a sheet is refused, else DONE. */
int tally_status(const struct tally *tally);

#endif
