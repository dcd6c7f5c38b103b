/*
 * Moonbleat: reference software for tensor shaders.
 *
 * A sheet is a short program: layouts and views that say where the elements of a matrix lie in
 * memory, and steps that fill, load, store, reduce, transpose and multiply-add matrices in four
 * registers and, from edition 2 on, multiply a vector in a register by a matrix in memory and add a
 * bias. From edition 3 on a load without an object starts from zeros. The library reads sheets,
 * carries them out, translates them into tapes (flat lists of copies) with masks (which elements each
 * load and store touched) and runs tapes. It answers what a correct device must answer, byte for byte.
 * It also says what becomes of each element of a sheet's loads and stores, and which way it was
 * clamped, and holds a device's trace, the list of what it did, to that.
 *
 * Link with libmoonbleat.a. The functions keep no state, allocate nothing and may be called from
 * any number of threads, each with arrays of its own.
 *
 * Answers
 * -------
 * Every function but moonbleat_touched, which refuses nothing, returns the refusal's number, 0 if the
 * input is accepted, and fills a row of four numbers:
 *
 *   answer[0]  the same number
 *   answer[1]  its place (a byte of the sheet or of the trace, a step or a record, by the table
 *              below; else 0)
 *   answer[2]  the second number of its place (an element, by the table below; else 0)
 *   answer[3]  byte-elements: how many elements of loads and stores had a byte in memory (what a
 *              vector step reads is not counted); for a running tape those of takes and puts, for
 *              a rewritten sheet or a written trace its length in bytes, for a replayed trace how
 *              many elements loads and stores have, with a byte or without, for counted divisions
 *              their number, for a read sheet and an outcome 0
 *
 * A refused input changes nothing: memory and the rooms of a tape, its masks, a sheet and a trace are
 * as before, counts, records, types, elements, the verdict and the outcome are all 0, and so is
 * answer[3]. Of an accepted input, what lies past the bytes or numbers written is as before.
 *
 * Refusals
 * --------
 *   no.  given when                                                          place
 *    1   fewer than 3 bytes are left for a field's head, or its content
 *        runs past the end of the sheet or of the trace                      byte of the head
 *    2   the tag is unknown, or comes with a later edition than the sheet's
 *        (0x26, the vector step, comes with edition 2); in a trace, it is
 *        not 0x30                                                            byte of the head
 *    3   a field is out of order (any that comes before the edition), the
 *        edition is repeated, there are too many layouts, views or steps;
 *        or the sheet has no edition                                         byte of the head,
 *                                                                            or sheet length
 *    4   the length is not one that the tag has                              byte of the head
 *    5   a number is out of its range, names a layout or a view that is not
 *        given, the permutation is none, or there is a bias offset but no
 *        bias; in a trace, the sort is above 3, or there is a byte but the
 *        sort is not 3;                                                      byte of the head
 *        an outcome is asked of a step that is no load or store, or of an
 *        element past its matrix                                             step, element
 *    6   the edition is not 1 to 3                                           byte of the head
 *    7   a register that is read is empty; of a load without an object, in
 *        every edition, its own                                              step
 *    8   shapes or kinds do not fit each other; a vector step's input is not
 *        K by 1, or packed and not u32, (K + 3) / 4 by 1                     step
 *    9   the base is not a multiple of 16                                    step
 *   10   a view without dimensions has another count than the layout         step
 *   11   a store goes through a block size above 1                           step
 *   12   the index after the view is 2^32 or more                            step, element
 *   13   the element lies outside and the clamp mode is Undefined            step, element
 *   14   the element's bytes do not all lie in memory; a vector step has
 *        row * K + column for its matrix's elements, M * K + i for its
 *        bias's                                                              step, element
 *   15   a store puts a later element where an earlier one is                step, element
 *   16   the tape has more than 1,024 records or more than the room holds;
 *        the room for its masks is shorter than MOONBLEAT_MASKS bytes        0
 *   17   a record is out of range, or a whole step would get 7, 8 or 14;
 *        a record count is above 1,024 or goes past the tape                 record, or 0
 *   18   the memory is longer than 65,536 bytes                              0
 *   19   the room for the written sheet or trace is too short                0
 *   26   in a trace, step and element are not after those of the field
 *        before (a later step, or a later element of the same step)          byte of the head
 *
 * If several apply, 18 comes first, then the sheet's fields one by one (each 1, 2, 3, 4, 6, 5),
 * then its steps one by one (each 7 to 11, then 12 to 14 element by element, then 15), then 16 (the
 * records, then the masks), 17 or 19, or what is asked for (5), or the trace's fields one by one (each
 * 1, 2, 4, 5, 26). The elements of a vector step go by row, whatever its memory layout, then the bias.
 * A byte of the head is one of the sheet, or of the trace where the sheet itself is accepted; one past
 * 2^32 - 1 is given as 2^32 - 1.
 *
 * Pointers
 * --------
 * Arrays that are passed to one call must not overlap. A sheet, a memory, a tape, masks, a trace and a
 * room may be NULL where their length is 0; answer, counts, records, types, elements, verdict and
 * outcome may never be.
 *
 * Stack
 * -----
 * MOONBLEAT_STACK bytes of stack are enough for a call. This is measured, on 20,000 sheets of each
 * edition and their tapes and traces, and tested, not proved: moonbleat_outcome and moonbleat_carry_out
 * took 13,744 bytes, every other function less. What a thread needs for itself comes on top.
 *
 * docs/SHEETS.md describes sheets, tapes, masks and traces field by field.
 */
#ifndef MOONBLEAT_H
#define MOONBLEAT_H

#include <stddef.h>
#include <stdint.h>

#ifdef __cplusplus
extern "C" {
#endif

/* The version of this interface: a major one may break callers, a minor one adds to it, a patch
 * changes nothing that a caller sees. */
#define MOONBLEAT_VERSION_MAJOR 2
#define MOONBLEAT_VERSION_MINOR 0
#define MOONBLEAT_VERSION_PATCH 0

/* The newest edition of sheets that is taken, from 1 on. */
#define MOONBLEAT_EDITION_MAX 3

/* Sizes. */
#define MOONBLEAT_MEMORY_MAX 65536        /* bytes of memory */
#define MOONBLEAT_REGISTERS 4             /* registers, each empty or holding a matrix */
#define MOONBLEAT_SIDE_MAX 16             /* rows and columns of a matrix */
#define MOONBLEAT_REGISTER_ELEMENTS 256   /* places for elements in a register */
#define MOONBLEAT_ELEMENTS 1024           /* ... in all registers */
#define MOONBLEAT_TYPE_BYTES 4            /* bytes of a register's type */
#define MOONBLEAT_TYPES 16                /* ... of all registers' types */
#define MOONBLEAT_LAYOUTS_MAX 4           /* layouts of a sheet */
#define MOONBLEAT_VIEWS_MAX 4             /* views of a sheet */
#define MOONBLEAT_STEPS_MAX 32            /* steps of a sheet */
#define MOONBLEAT_SHEET_MAX 1096          /* bytes of the longest sheet that is accepted */
#define MOONBLEAT_RECORDS_MAX 1024        /* records of a tape */
#define MOONBLEAT_STEP_RECORDS 257        /* ... of one step at most: a load's copy or fill, and its runs */
#define MOONBLEAT_RECORD_NUMBERS 6        /* numbers of a record */
#define MOONBLEAT_TAPE_NUMBERS 6144       /* numbers of the longest tape */
#define MOONBLEAT_MASK_BYTES 34           /* bytes of a step's mask */
#define MOONBLEAT_MASKS 1088              /* ... of all steps' masks: the room that they need */
#define MOONBLEAT_ACCESS_BYTES 12         /* bytes of a field of a trace */
#define MOONBLEAT_TRACE_MAX 98304         /* bytes that hold every sheet's trace */
#define MOONBLEAT_COUNTS 3                /* layouts, views, steps */
#define MOONBLEAT_VERDICT 2               /* agrees, index */
#define MOONBLEAT_OUTCOME 4               /* sort, byte or bits, dimension, side */
#define MOONBLEAT_ANSWER 4                /* number, place, second place, byte-elements */
#define MOONBLEAT_STACK 40960             /* bytes of stack that are enough for a call */

/* Places in an answer. */
enum {
    MOONBLEAT_NUMBER = 0,
    MOONBLEAT_PLACE = 1,
    MOONBLEAT_SECOND_PLACE = 2,
    MOONBLEAT_BYTE_ELEMENTS = 3
};

/* Places in a verdict. */
enum {
    MOONBLEAT_AGREES = 0,
    MOONBLEAT_INDEX = 1
};

/* Places in an outcome. */
enum {
    MOONBLEAT_OUTCOME_SORT = 0,
    MOONBLEAT_OUTCOME_VALUE = 1,
    MOONBLEAT_OUTCOME_DIMENSION = 2,
    MOONBLEAT_OUTCOME_SIDE = 3
};

/* The place of the count in a step's mask, behind the bits. */
enum {
    MOONBLEAT_MASK_COUNT = 32
};

/* Places in a register's type; the fourth byte is 0. An empty register has four zeros. */
enum {
    MOONBLEAT_TYPE_KIND = 0,
    MOONBLEAT_TYPE_ROWS = 1,
    MOONBLEAT_TYPE_COLUMNS = 2
};

/* Element kinds. An element is its raw bits, in memory little-endian. */
enum {
    MOONBLEAT_U8 = 0,
    MOONBLEAT_S8 = 1,
    MOONBLEAT_U16 = 2,
    MOONBLEAT_S16 = 3,
    MOONBLEAT_U32 = 4,
    MOONBLEAT_S32 = 5
};

/* Interpretations of a vector step's input beside the kinds: words of four components, lowest byte
 * first. */
enum {
    MOONBLEAT_PACKED_S8 = 8,
    MOONBLEAT_PACKED_U8 = 9
};

/* Memory layouts of a vector step's matrix: its stride leads from row to row or from column to
 * column. */
enum {
    MOONBLEAT_ROW_MAJOR = 0,
    MOONBLEAT_COLUMN_MAJOR = 1
};

/* Tags of a sheet's fields: a tag, a two-byte length, then the content. */
enum {
    MOONBLEAT_TAG_EDITION = 0x01,
    MOONBLEAT_TAG_LAYOUT = 0x10,
    MOONBLEAT_TAG_VIEW = 0x11,
    MOONBLEAT_TAG_FILL = 0x20,
    MOONBLEAT_TAG_LOAD = 0x21,
    MOONBLEAT_TAG_STORE = 0x22,
    MOONBLEAT_TAG_REDUCE = 0x23,
    MOONBLEAT_TAG_TRANSPOSE = 0x24,
    MOONBLEAT_TAG_MULTIPLY_ADD = 0x25,
    MOONBLEAT_TAG_VECTOR = 0x26 /* from edition 2 on */
};

/* The tag of a trace's fields, each one access: a tag, a two-byte length, then step (2 bytes),
 * element (2), sort (1) and byte (4). */
enum {
    MOONBLEAT_TAG_ACCESS = 0x30
};

/* Sorts of an access and of an outcome: what becomes of an element of a load or a store. */
enum {
    MOONBLEAT_SORT_SKIPPED = 0,   /* outside the view's clip */
    MOONBLEAT_SORT_FILLED = 1,    /* outside the tensor, on a load: gets the clamp value */
    MOONBLEAT_SORT_DISCARDED = 2, /* outside the tensor, on a store: does nothing */
    MOONBLEAT_SORT_BYTE = 3       /* has a byte, its first one in memory; of the others the byte is 0 */
};

/* Sides of an outcome: where the element's coordinate in its dimension lies. */
enum {
    MOONBLEAT_SIDE_INSIDE = 0, /* no dimension is outside */
    MOONBLEAT_SIDE_BELOW = 1,  /* below 0 */
    MOONBLEAT_SIDE_ABOVE = 2   /* at or above the dimension's size */
};

/* In place of a load's object or of a view: none. A load without an object goes by its own register's
 * type. In editions 1 and 2 it also starts from what that register holds: skipped elements keep it. From
 * edition 3 on it starts from zeros: skipped elements become 0. (A load whose object is its own register
 * keeps the contents in every edition.) */
#define MOONBLEAT_NONE 255

/* Clamp modes of a layout: what becomes of an element outside the tensor. */
enum {
    MOONBLEAT_CLAMP_UNDEFINED = 0, /* refused */
    MOONBLEAT_CLAMP_CONSTANT = 1,  /* a load gets the clamp value; in this and the others, a store does nothing */
    MOONBLEAT_CLAMP_TO_EDGE = 2,
    MOONBLEAT_CLAMP_REPEAT = 3,
    MOONBLEAT_CLAMP_MIRROR_REPEAT = 4
};

/* Modes of a reduce: which elements are combined. */
enum {
    MOONBLEAT_REDUCE_ROW = 1,
    MOONBLEAT_REDUCE_COLUMN = 2,
    MOONBLEAT_REDUCE_BOTH = 3,
    MOONBLEAT_REDUCE_2X2 = 4
};

/* Combines of a reduce. */
enum {
    MOONBLEAT_COMBINE_ADD = 0, /* wraps at the kind's width */
    MOONBLEAT_COMBINE_MIN = 1, /* by sign, as max */
    MOONBLEAT_COMBINE_MAX = 2,
    MOONBLEAT_COMBINE_AND = 3,
    MOONBLEAT_COMBINE_OR = 4,
    MOONBLEAT_COMBINE_XOR = 5
};

/* Refusals; 0 is none. */
enum {
    MOONBLEAT_REFUSED_CUT_SHORT = 1,
    MOONBLEAT_REFUSED_TAG = 2,
    MOONBLEAT_REFUSED_ORDER = 3,
    MOONBLEAT_REFUSED_LENGTH = 4,
    MOONBLEAT_REFUSED_NUMBER = 5,
    MOONBLEAT_REFUSED_EDITION = 6,
    MOONBLEAT_REFUSED_EMPTY_REGISTER = 7,
    MOONBLEAT_REFUSED_SHAPE = 8,
    MOONBLEAT_REFUSED_BASE = 9,
    MOONBLEAT_REFUSED_VIEW = 10,
    MOONBLEAT_REFUSED_BLOCK = 11,
    MOONBLEAT_REFUSED_INDEX = 12,
    MOONBLEAT_REFUSED_OUTSIDE = 13,
    MOONBLEAT_REFUSED_ADDRESS = 14,
    MOONBLEAT_REFUSED_SHARED_BYTE = 15,
    MOONBLEAT_REFUSED_TAPE_LENGTH = 16,
    MOONBLEAT_REFUSED_RECORD = 17,
    MOONBLEAT_REFUSED_MEMORY = 18,
    MOONBLEAT_REFUSED_ROOM = 19,
    MOONBLEAT_REFUSED_TRACE_ORDER = 26
};

/* Ops of a tape's records: the first of six numbers. A load has a copy of its object, or, without an
 * object, from edition 3 on a fill of 0 over its whole matrix, in editions 1 and 2 nothing; then its
 * runs, takes and fills. That fill is there also where the runs leave none of its zeros, and is never
 * joined with them. A store has its runs, puts; every other step is one whole step. */
enum {
    MOONBLEAT_OP_COPY = 0, /* register, object, 0, 0, 0 */
    MOONBLEAT_OP_TAKE = 1, /* register, first element, count, byte, step in bytes */
    MOONBLEAT_OP_PUT = 2,  /* the same, from the register to memory */
    MOONBLEAT_OP_FILL = 3, /* register, first element, count, raw bits, 0 */
    MOONBLEAT_OP_STEP = 4  /* step of the sheet, 0, 0, 0, 0 */
};

/*
 * Reads a sheet. On success counts[] has its numbers of layouts, views and steps.
 * Refusals 1 to 6.
 */
uint32_t moonbleat_read(const uint8_t *sheet, size_t sheet_len, uint32_t counts[3], uint32_t answer[4]);

/*
 * Reads a sheet and writes what was read into out[]; answer[3] is the byte count. What is written
 * is what was read, byte for byte. Refusals 1 to 6, then 19.
 */
uint32_t moonbleat_rewrite(const uint8_t *sheet, size_t sheet_len, uint8_t *out, size_t out_len, uint32_t answer[4]);

/*
 * Checks a sheet for a memory of some length, without a memory: it is accepted exactly if
 * moonbleat_carry_out accepts it on every memory of that length. Refusals 18 and 1 to 15.
 */
uint32_t moonbleat_check(const uint8_t *sheet, size_t sheet_len, size_t memory_len, uint32_t answer[4]);

/*
 * Carries out a sheet on a memory, from empty registers. On success memory[] is what the stores
 * left, and the registers are in two arrays:
 *
 *   types[4 * r ..]       kind, rows, columns and 0 of register r; four zeros if it is empty
 *   elements[256 * r ..]  its elements' raw bits, row by row, then zeros
 *
 * Refusals 18 and 1 to 15.
 */
uint32_t moonbleat_carry_out(const uint8_t *sheet, size_t sheet_len, uint8_t *memory, size_t memory_len,
                             uint8_t types[16], uint32_t elements[1024], uint32_t answer[4]);

/*
 * Translates a sheet for a memory of some length into a tape, and masks beside it. Refusals 18, 1 to
 * 15, then 16.
 *
 * The tape has six numbers a record, records[0] records. A room of MOONBLEAT_TAPE_NUMBERS numbers holds
 * every tape, and no step has more than MOONBLEAT_STEP_RECORDS records. Running the tape with its sheet
 * on a memory of that length leaves the memory, the registers and the byte-elements that carrying out
 * the sheet leaves.
 *
 * The masks say which elements each step touched: those of its load or store that have a byte
 * (MOONBLEAT_SORT_BYTE), not the skipped, filled and discarded ones. Step s has the
 * MOONBLEAT_MASK_BYTES bytes from 34 * s on:
 *
 *   bytes 0 to 31    element e is bit e mod 8, lowest first, of byte e / 8; set if it was touched
 *   bytes 32 and 33  how many are set, little-endian
 *
 * A step that is no load or store (a vector step is none) has 34 zeros, and so have the places past
 * the last step: whatever the sheet, the first MOONBLEAT_MASKS bytes of masks[] are written, and a
 * shorter room gets 16. The counts add up to answer[3].
 */
uint32_t moonbleat_translate(const uint8_t *sheet, size_t sheet_len, size_t memory_len,
                             int32_t *tape, size_t tape_len, uint8_t *masks, size_t masks_len,
                             uint32_t records[1], uint32_t answer[4]);

/*
 * Asks masks whether a step touched an element: 1 if its bit is set, else 0. A step above 31, an
 * element above 255, and one whose bit lies past masks_len bytes, get 0 too. The masks may be any
 * bytes; their counts are not looked at. Nothing is refused, so there is no answer row.
 *
 *   uint8_t masks[MOONBLEAT_MASKS];
 *   if (moonbleat_translate(sheet, sheet_len, memory_len, tape, MOONBLEAT_TAPE_NUMBERS, masks,
 *                           sizeof masks, records, answer) == 0 &&
 *       moonbleat_touched(masks, sizeof masks, 1, 5) == 1)
 *       puts("step 1 touches element 5");
 */
uint32_t moonbleat_touched(const uint8_t *masks, size_t masks_len, uint32_t step, uint32_t element);

/*
 * Runs the first `records` records of a tape with its sheet on a memory, from empty registers;
 * tape_len counts numbers. Registers and memory are as for moonbleat_carry_out. The tape may come
 * from anywhere: of the sheet only its reading is checked. Refusals 18, 1 to 6, then 17.
 */
uint32_t moonbleat_run(const uint8_t *sheet, size_t sheet_len, const int32_t *tape, size_t tape_len, size_t records,
                       uint8_t *memory, size_t memory_len, uint8_t types[16], uint32_t elements[1024],
                       uint32_t answer[4]);

/*
 * Writes the trace that a correct device records of a sheet on a memory of some length, without a
 * memory, to the start of out[]: a field of MOONBLEAT_ACCESS_BYTES bytes for each element of each
 * load and store, by step, then by element. A load has the elements of its object's matrix, or, without
 * an object, of its own register's, a store those of its register's, row by row; other steps have none.
 * answer[3] is the byte count. A room of MOONBLEAT_TRACE_MAX bytes holds every trace. Refusals 18, 1 to
 * 15, then 19.
 */
uint32_t moonbleat_trace(const uint8_t *sheet, size_t sheet_len, size_t memory_len, uint8_t *out, size_t out_len,
                         uint32_t answer[4]);

/*
 * Replays a device's trace against a sheet and the length of a memory, without a memory: it is held
 * to the fields that moonbleat_trace writes. On success verdict[] is
 *
 *   1, 0       the trace agrees: it has these fields and no others
 *   0, index   the first field, counted from 0, at which the two differ, or at which one of them
 *              has ended
 *
 * and answer[3] is how many fields the sheet's own trace has. The whole trace is judged before it is
 * compared, so a refusal behind a difference still refuses; a byte past the memory only differs. An
 * empty trace is one. Refusals 18, 1 to 15 of the sheet, then 1, 2, 4, 5 and 26 of the trace.
 */
uint32_t moonbleat_replay(const uint8_t *sheet, size_t sheet_len, size_t memory_len, const uint8_t *trace,
                          size_t trace_len, uint32_t verdict[2], uint32_t answer[4]);

/*
 * Counts the divisions by spans that the elements of a sheet's loads and stores take on a memory of
 * some length, without a memory. Rule 3 of docs/SHEETS.md divides an element's index by its layout's
 * spans, from the last dimension to the first: a division for each span above 1 while the index is
 * not 0. A span of 1 and an index of 0 need none. An element outside the view's clip takes none; for
 * every other one they are counted, with a byte or without. answer[3] is their number. Nothing else
 * depends on it: it is there for those who time layouts. Refusals 18 and 1 to 15, as moonbleat_check
 * gives them.
 */
uint32_t moonbleat_divisions(const uint8_t *sheet, size_t sheet_len, size_t memory_len, uint32_t answer[4]);

/*
 * Says what becomes of one element of a sheet's load or store on a memory of some length, without a
 * memory, and which way it was clamped. Steps and elements are counted as in a trace. On success
 * outcome[] is
 *
 *   outcome[0]  its sort, as in a trace
 *   outcome[1]  its byte, or, of a filled element, the bits that it gets; of the other sorts 0
 *   outcome[2]  the first dimension of its layout, from 0 on, in which it lies outside the tensor
 *   outcome[3]  on which side: its coordinate there, the offset added, is below 0 or at or above the
 *               dimension's size
 *
 * A filled or discarded element has a dimension and a side, and so has a load's element whose byte
 * comes from the clamp mode (the edge, a repetition, a mirror image). One that is inside in every
 * dimension, and a skipped one, have 0 and MOONBLEAT_SIDE_INSIDE. Refusals 18 and 1 to 15, as
 * moonbleat_check gives them, then 5, at the step and the element that are asked for, if that step is
 * no load or store of the sheet or has no such element. (Of a sheet that moonbleat_check accepts, a 5
 * is always this one.)
 */
uint32_t moonbleat_outcome(const uint8_t *sheet, size_t sheet_len, size_t memory_len, uint32_t step,
                           uint32_t element, uint32_t outcome[4], uint32_t answer[4]);

#ifdef __cplusplus
}
#endif

#endif
