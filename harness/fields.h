/*
 * The fields of a sheet as tables: what numbers each has, how wide they are, what range they have,
 * and how they are written in words and in the text form. Showing, assembling and diagnosing go
 * over these tables; a new step, kind or mode is a row of fields.c.
 */
#ifndef FIELDS_H
#define FIELDS_H

#include <stdbool.h>
#include <stddef.h>
#include <stdint.h>

enum {
    HEAD_BYTES = 3,       /* a field's tag and length */
    DIMENSIONS_MAX = 5,   /* of a layout or a view */
    PARTS_MAX = 4,        /* of a field */
    VALUES_MAX = 28       /* numbers of the longest field, a layout */
};

/* What a number stands for, which decides how it is written. */
enum sort {
    PLAIN,
    SIGNED,   /* in two's complement */
    COUNT,    /* of the dimensions that follow */
    SIZED,    /* whether a view has dimensions of its own */
    HAS_BIAS, /* whether there is the bias whose offset follows */
    BIAS,     /* that offset */
    PERMUTED, /* one of the dimensions' numbers, each once */
    RESULT,   /* r0, a register that is written */
    REGISTER, /* r0, one that is read */
    OBJECT,   /* r0 that is read, or none: then the result is read, or its type alone */
    LAYOUT,   /* L0 */
    VIEW,     /* V0 or none */
    ROWS,     /* the first half of 1x8 */
    COLUMNS,  /* the second one */
    MODE,     /* by its name */
    KIND,     /* the same, of elements */
    VALUE     /* the raw bits of an element of the field's kind */
};

/* The name of a number, NULL if it has none. */
typedef const char *namer(uint32_t number);

struct number_form {
    const char *name;    /* as it is called in sentences */
    const char *keyword; /* before it in the text form; NULL: none */
    enum sort sort;
    uint8_t width; /* bytes */
    int64_t low;   /* its range; some sorts have a narrower one, see range_of */
    int64_t high;
    namer *name_of;   /* of a MODE or a KIND; a number without a name is out of the range */
    bool may_lack;    /* the text form may leave it out .. */
    uint32_t lacking; /* .. and then it is this number */
};

/* How often a part stands in a field. */
enum repeat { ONCE, EACH_DIMENSION, EACH_SIZED_DIMENSION };

struct part_form {
    enum repeat repeat;
    const char *word;   /* the first word of its line in the text form; NULL: on the line before */
    const char *plural; /* of a repeated part: what its repetitions are called */
    const char *words;  /* the part in words, with each {name} in place of a number */
    const struct number_form *numbers;
    size_t count;
};

/* The order of fields in a sheet. */
enum rank { EDITION_RANK, LAYOUT_RANK, VIEW_RANK, STEP_RANK, RANKS };

struct field_form {
    uint8_t tag;
    uint8_t since; /* the edition that it comes with */
    enum rank rank;
    const char *name; /* also the first word of its line in the text form */
    struct part_form parts[PARTS_MAX];
    size_t part_count;
};

struct rank_form {
    const char *name;  /* of a field of this rank */
    char label;        /* before its number in the text form; 0: it has none */
    unsigned limit;    /* how many of them a sheet may have */
};

extern const struct rank_form rank_forms[RANKS];

/* All fields, in the order of their tags. */
extern const struct field_form field_forms[];
extern const size_t field_form_count;

/* The field of a tag; NULL if there is none. */
const struct field_form *field_of_tag(uint8_t tag);

/* A little-endian number of 1 to 4 bytes. */
uint32_t little(const uint8_t *bytes, size_t width);

/* The edition of a sheet, which its first field has; 0 if that is no edition. */
unsigned edition_of(const uint8_t *sheet, size_t sheet_len);

/* A field of a sheet or a trace: its content may be cut short by the end. */
struct field {
    const struct field_form *form; /* NULL: unknown tag */
    unsigned edition;              /* of its sheet */
    size_t at;                     /* the byte of its head */
    uint8_t tag;
    size_t length; /* as its head has it */
    const uint8_t *content;
    size_t content_len;
};

/* The field at a byte of a sheet or a trace; false if fewer than three bytes are left. */
bool field_at(const uint8_t *sheet, size_t sheet_len, size_t at, struct field *field);

/* The byte after a field. */
size_t field_end(const struct field *field);

/* A number of a field. */
struct value {
    const struct number_form *form;
    size_t part;
    unsigned dimension; /* in a repeated part */
    uint32_t raw;
};

/* The numbers of a field in their order, as many as its content has whole. */
struct values {
    struct value at[VALUES_MAX];
    size_t count;
    unsigned edition; /* of the sheet */
};

void field_values(const struct field *field, struct values *values);

/* The first number of a sort; 0 if there is none. */
uint32_t value_of_sort(const struct values *values, enum sort sort);

/* The letter before a number of a sort in the text form; 0: none. */
char prefix_of(enum sort sort);

/* Whether a number follows from the others of its text: it is not written there. */
bool is_computed(enum sort sort);

/* The names of modes and the like; NULL if there is none. */
const char *clamp_mode_name(uint32_t mode);
const char *reduce_mode_name(uint32_t mode);
const char *combine_name(uint32_t combine);
const char *memory_layout_name(uint32_t layout);

/* What stands in place of an object or a view that there is none of. */
#define NONE_WORD "none"

/* Whether a number may say that there is none, and whether it does. */
bool may_be_none(const struct number_form *form);
bool is_none(const struct number_form *form, int64_t number);

/* What a load starts from, and keeps where elements are skipped: its object, what its register holds,
 * or zeros of that register's type. */
enum start { FROM_OBJECT, FROM_REGISTER, FROM_ZEROS };
enum start start_of(const struct values *load);

/* The edition that brought the zeros, and what may stand for them in place of an object. */
#define ZEROS_EDITION 3
#define ZEROS_WORD "zeros"

/* Whether a number of a field is the offset of a bias that there is not: the number before it says so. */
bool lacks_bias(const struct value *value);

/* The number that raw bits of a form stand for. */
int64_t number_of(const struct number_form *form, uint32_t raw);

/* The length of a field's content with some dimensions, of its own or not. */
size_t content_length(const struct field_form *form, unsigned dimensions, bool sized);

#endif
