#include "fields.h"

#include <string.h>

#include "kinds.h"
#include "moonbleat.h"

#define LENGTH(array) (sizeof(array) / sizeof((array)[0]))

/* -- Names ------------------------------------------------------------------------------------ */

const char *clamp_mode_name(uint32_t mode)
{
    static const char *const names[] = {
        [MOONBLEAT_CLAMP_UNDEFINED] = "Undefined",   [MOONBLEAT_CLAMP_CONSTANT] = "Constant",
        [MOONBLEAT_CLAMP_TO_EDGE] = "ClampToEdge",   [MOONBLEAT_CLAMP_REPEAT] = "Repeat",
        [MOONBLEAT_CLAMP_MIRROR_REPEAT] = "MirrorRepeat",
    };
    return mode < LENGTH(names) ? names[mode] : NULL;
}

const char *reduce_mode_name(uint32_t mode)
{
    static const char *const names[] = {
        [MOONBLEAT_REDUCE_ROW] = "row",
        [MOONBLEAT_REDUCE_COLUMN] = "column",
        [MOONBLEAT_REDUCE_BOTH] = "both",
        [MOONBLEAT_REDUCE_2X2] = "2x2",
    };
    return mode < LENGTH(names) ? names[mode] : NULL;
}

const char *combine_name(uint32_t combine)
{
    static const char *const names[] = {
        [MOONBLEAT_COMBINE_ADD] = "add", [MOONBLEAT_COMBINE_MIN] = "min", [MOONBLEAT_COMBINE_MAX] = "max",
        [MOONBLEAT_COMBINE_AND] = "and", [MOONBLEAT_COMBINE_OR] = "or",   [MOONBLEAT_COMBINE_XOR] = "xor",
    };
    return combine < LENGTH(names) ? names[combine] : NULL;
}

const char *memory_layout_name(uint32_t layout)
{
    static const char *const names[] = {
        [MOONBLEAT_ROW_MAJOR] = "row-major",
        [MOONBLEAT_COLUMN_MAJOR] = "column-major",
    };
    return layout < LENGTH(names) ? names[layout] : NULL;
}

/* -- Numbers ---------------------------------------------------------------------------------- */

/* The editions that brought fields. */
#define FIRST_EDITION 1
#define VECTOR_EDITION 2

#define REGISTER_MAX (MOONBLEAT_REGISTERS - 1)
#define EXTENT_MAX 4096
#define OFFSET_MIN (-4096)
#define OFFSET_MAX 4095

/* A number of some bytes; one that the text form may leave out; one that is written by a name. */
#define NUMBER(name, keyword, sort, width, low, high) {name, keyword, sort, width, low, high, NULL, false, 0}
#define OPTIONAL(name, keyword, sort, width, low, high, lacking) \
    {name, keyword, sort, width, low, high, NULL, true, lacking}
#define NAMES(name, keyword, sort, low, high, namer) {name, keyword, sort, 1, low, high, namer, false, 0}

#define WRITTEN(name) NUMBER(name, NULL, RESULT, 1, 0, REGISTER_MAX)
#define READ(name, keyword) NUMBER(name, keyword, REGISTER, 1, 0, REGISTER_MAX)
#define SIDES(rows, columns) \
    NUMBER(rows, NULL, ROWS, 1, 1, MOONBLEAT_SIDE_MAX), \
    NUMBER(columns, NULL, COLUMNS, 1, 1, MOONBLEAT_SIDE_MAX)
#define DIMENSION_COUNT NUMBER("dimension count", NULL, COUNT, 1, 1, DIMENSIONS_MAX)
#define ADDRESSING \
    NUMBER("layout", NULL, LAYOUT, 1, 0, MOONBLEAT_LAYOUTS_MAX - 1), \
    OPTIONAL("view", NULL, VIEW, 1, 0, MOONBLEAT_VIEWS_MAX - 1, MOONBLEAT_NONE), \
    NUMBER("base", "base", PLAIN, 4, 0, UINT32_MAX)

static const struct number_form edition_numbers[] = {
    NUMBER("edition", NULL, PLAIN, 1, FIRST_EDITION, MOONBLEAT_EDITION_MAX),
};
static const struct number_form layout_numbers[] = {
    DIMENSION_COUNT,
    NAMES("clamp mode", NULL, MODE, MOONBLEAT_CLAMP_UNDEFINED, MOONBLEAT_CLAMP_MIRROR_REPEAT, clamp_mode_name),
    OPTIONAL("clamp value", "value", PLAIN, 4, 0, UINT32_MAX, 0),
};
static const struct number_form dimension_numbers[] = {
    OPTIONAL("block", "block", PLAIN, 2, 1, EXTENT_MAX, 1),
    NUMBER("size", "size", PLAIN, 2, 1, EXTENT_MAX),
    NUMBER("stride", "stride", PLAIN, 2, 0, UINT16_MAX),
    OPTIONAL("offset", "offset", SIGNED, 2, OFFSET_MIN, OFFSET_MAX, 0),
    NUMBER("span", "span", PLAIN, 2, 1, EXTENT_MAX),
};
static const struct number_form view_numbers[] = {
    DIMENSION_COUNT,
    NUMBER("has-dimensions", NULL, SIZED, 1, 0, 1),
};
static const struct number_form permutation_numbers[] = {
    NUMBER("permutation", "permutation", PERMUTED, 1, 0, DIMENSIONS_MAX - 1),
};
static const struct number_form view_dimension_numbers[] = {
    NUMBER("size", "size", PLAIN, 2, 1, EXTENT_MAX),
    NUMBER("stride", "stride", PLAIN, 2, 0, UINT16_MAX),
};
static const struct number_form clip_numbers[] = {
    OPTIONAL("row offset", "rows", PLAIN, 2, 0, UINT16_MAX, 0),
    OPTIONAL("row span", NULL, PLAIN, 2, 0, UINT16_MAX, UINT16_MAX),
    OPTIONAL("column offset", "columns", PLAIN, 2, 0, UINT16_MAX, 0),
    OPTIONAL("column span", NULL, PLAIN, 2, 0, UINT16_MAX, UINT16_MAX),
};
static const struct number_form fill_numbers[] = {
    WRITTEN("register"),
    SIDES("rows", "columns"),
    NAMES("kind", NULL, KIND, MOONBLEAT_U8, MOONBLEAT_S32, kind_name),
    NUMBER("value", NULL, VALUE, 4, 0, UINT32_MAX),
};
static const struct number_form load_numbers[] = {
    WRITTEN("register"),
    OPTIONAL("object", "object", OBJECT, 1, 0, REGISTER_MAX, MOONBLEAT_NONE),
    ADDRESSING,
};
static const struct number_form store_numbers[] = {
    READ("register", NULL),
    ADDRESSING,
};
static const struct number_form reduce_numbers[] = {
    WRITTEN("result"),
    READ("source", "of"),
    SIDES("rows", "columns"),
    NAMES("mode", NULL, MODE, MOONBLEAT_REDUCE_ROW, MOONBLEAT_REDUCE_2X2, reduce_mode_name),
    NAMES("combine", NULL, MODE, MOONBLEAT_COMBINE_ADD, MOONBLEAT_COMBINE_XOR, combine_name),
};
static const struct number_form transpose_numbers[] = {
    WRITTEN("result"),
    READ("source", "of"),
};
static const struct number_form multiply_add_numbers[] = {
    WRITTEN("result"),
    READ("A", "A"),
    READ("B", "B"),
    READ("C", "C"),
};
static const struct number_form vector_numbers[] = {
    WRITTEN("result"),
    NAMES("result kind", NULL, KIND, MOONBLEAT_U32, MOONBLEAT_S32, kind_name),
    READ("input", "of"),
    NAMES("input interpretation", "as", MODE, MOONBLEAT_U8, MOONBLEAT_PACKED_U8, interpretation_name),
    NAMES("matrix interpretation", "matrix", MODE, MOONBLEAT_U8, MOONBLEAT_S32, kind_name),
    SIDES("M", "K"),
    NAMES("memory layout", NULL, MODE, MOONBLEAT_ROW_MAJOR, MOONBLEAT_COLUMN_MAJOR, memory_layout_name),
    NUMBER("stride", "stride", PLAIN, 2, 0, UINT16_MAX),
    NUMBER("matrix offset", "offset", PLAIN, 4, 0, UINT32_MAX),
    NUMBER("bias", NULL, HAS_BIAS, 1, 0, 1),
    OPTIONAL("bias offset", "bias", BIAS, 4, 0, UINT32_MAX, 0),
};

/* -- Fields ----------------------------------------------------------------------------------- */

#define PART(repeat, word, plural, words, numbers) {repeat, word, plural, words, numbers, LENGTH(numbers)}
#define STEP(tag, since, name, words, numbers) \
    {tag, since, STEP_RANK, name, {PART(ONCE, NULL, NULL, words, numbers)}, 1}

const struct rank_form rank_forms[RANKS] = {
    [EDITION_RANK] = {"edition", '\0', 1},
    [LAYOUT_RANK] = {"layout", 'L', MOONBLEAT_LAYOUTS_MAX},
    [VIEW_RANK] = {"view", 'V', MOONBLEAT_VIEWS_MAX},
    [STEP_RANK] = {"step", '\0', MOONBLEAT_STEPS_MAX},
};

const struct field_form field_forms[] = {
    {MOONBLEAT_TAG_EDITION,
     FIRST_EDITION,
     EDITION_RANK,
     "edition",
     {PART(ONCE, NULL, NULL, "edition {edition}", edition_numbers)},
     1},
    {MOONBLEAT_TAG_LAYOUT,
     FIRST_EDITION,
     LAYOUT_RANK,
     "layout",
     {PART(ONCE, NULL, NULL, "{dimension count}, clamp mode {clamp mode}, clamp value {clamp value}", layout_numbers),
      PART(EACH_DIMENSION, "dim", "dimensions",
           "block {block}, size {size}, stride {stride}, offset {offset}, span {span}", dimension_numbers)},
     2},
    {MOONBLEAT_TAG_VIEW,
     FIRST_EDITION,
     VIEW_RANK,
     "view",
     {PART(ONCE, NULL, NULL, "{dimension count}, {has-dimensions}, permutation", view_numbers),
      PART(EACH_DIMENSION, NULL, "permutation", " {permutation}", permutation_numbers),
      PART(EACH_SIZED_DIMENSION, "dim", "dimensions", "size {size}, stride {stride}", view_dimension_numbers),
      PART(ONCE, "clip", NULL,
           "clip: rows from {row offset}, span {row span}; columns from {column offset}, span {column span}",
           clip_numbers)},
     4},
    STEP(MOONBLEAT_TAG_FILL, FIRST_EDITION, "fill",
         "fill register {register}, {rows} by {columns} of {kind}, with {value}", fill_numbers),
    STEP(MOONBLEAT_TAG_LOAD, FIRST_EDITION, "load",
         "load register {register}, {object}, layout {layout}, {view}, base {base}", load_numbers),
    STEP(MOONBLEAT_TAG_STORE, FIRST_EDITION, "store",
         "store register {register}, layout {layout}, {view}, base {base}", store_numbers),
    STEP(MOONBLEAT_TAG_REDUCE, FIRST_EDITION, "reduce",
         "reduce register {source} to register {result}, {rows} by {columns}, mode {mode}, combine {combine}",
         reduce_numbers),
    STEP(MOONBLEAT_TAG_TRANSPOSE, FIRST_EDITION, "transpose", "transpose register {source} to register {result}",
         transpose_numbers),
    STEP(MOONBLEAT_TAG_MULTIPLY_ADD, FIRST_EDITION, "multiply-add",
         "multiply registers {A} and {B}, add register {C}, to register {result}", multiply_add_numbers),
    STEP(MOONBLEAT_TAG_VECTOR, VECTOR_EDITION, "vector",
         "multiply a {M} by {K} matrix of {matrix interpretation} ({memory layout}, stride {stride}, offset "
         "{matrix offset}) and register {input} as {input interpretation}, {bias offset}, to register {result} of "
         "{result kind}",
         vector_numbers),
};

const size_t field_form_count = LENGTH(field_forms);

const struct field_form *field_of_tag(uint8_t tag)
{
    for (size_t i = 0; i < field_form_count; i++) {
        if (field_forms[i].tag == tag) {
            return &field_forms[i];
        }
    }
    return NULL;
}

char prefix_of(enum sort sort)
{
    switch (sort) {
    case RESULT:
    case REGISTER:
    case OBJECT:
        return 'r';
    case LAYOUT:
        return rank_forms[LAYOUT_RANK].label;
    case VIEW:
        return rank_forms[VIEW_RANK].label;
    default:
        return '\0';
    }
}

bool is_computed(enum sort sort)
{
    return sort == COUNT || sort == SIZED || sort == HAS_BIAS;
}

bool may_be_none(const struct number_form *form)
{
    return form->sort == OBJECT || form->sort == VIEW;
}

bool is_none(const struct number_form *form, int64_t number)
{
    return may_be_none(form) && number == MOONBLEAT_NONE;
}

enum start start_of(const struct values *load)
{
    if (value_of_sort(load, OBJECT) != MOONBLEAT_NONE) {
        return FROM_OBJECT;
    }
    return load->edition < ZEROS_EDITION ? FROM_REGISTER : FROM_ZEROS;
}

bool lacks_bias(const struct value *value)
{
    return value->form->sort == BIAS && value[-1].raw == 0;
}

/* -- Walking ---------------------------------------------------------------------------------- */

uint32_t little(const uint8_t *bytes, size_t width)
{
    uint32_t number = 0;
    for (size_t i = width; i > 0; i--) {
        number = number << 8 | bytes[i - 1];
    }
    return number;
}

unsigned edition_of(const uint8_t *sheet, size_t sheet_len)
{
    bool has_edition = sheet_len > HEAD_BYTES && sheet[0] == MOONBLEAT_TAG_EDITION && little(sheet + 1, 2) > 0;
    return has_edition ? sheet[HEAD_BYTES] : 0;
}

bool field_at(const uint8_t *sheet, size_t sheet_len, size_t at, struct field *field)
{
    if (at >= sheet_len || sheet_len - at < HEAD_BYTES) {
        return false;
    }
    size_t left = sheet_len - at - HEAD_BYTES;
    field->at = at;
    field->edition = edition_of(sheet, sheet_len);
    field->tag = sheet[at];
    field->form = field_of_tag(field->tag);
    field->length = little(sheet + at + 1, 2);
    field->content = sheet + at + HEAD_BYTES;
    field->content_len = field->length < left ? field->length : left;
    return true;
}

size_t field_end(const struct field *field)
{
    return field->at + HEAD_BYTES + field->content_len;
}

/* How often a part stands in a field with some dimensions. */
static unsigned times(const struct part_form *part, unsigned dimensions, bool sized)
{
    switch (part->repeat) {
    case EACH_DIMENSION:
        return dimensions;
    case EACH_SIZED_DIMENSION:
        return sized ? dimensions : 0;
    default:
        return 1;
    }
}

static size_t part_length(const struct part_form *part)
{
    size_t length = 0;
    for (size_t i = 0; i < part->count; i++) {
        length += part->numbers[i].width;
    }
    return length;
}

size_t content_length(const struct field_form *form, unsigned dimensions, bool sized)
{
    size_t length = 0;
    for (size_t i = 0; i < form->part_count; i++) {
        length += times(&form->parts[i], dimensions, sized) * part_length(&form->parts[i]);
    }
    return length;
}

uint32_t value_of_sort(const struct values *values, enum sort sort)
{
    for (size_t i = 0; i < values->count; i++) {
        if (values->at[i].form->sort == sort) {
            return values->at[i].raw;
        }
    }
    return 0;
}

void field_values(const struct field *field, struct values *values)
{
    size_t at = 0;
    values->count = 0;
    values->edition = field->edition;
    for (size_t p = 0; field->form != NULL && p < field->form->part_count; p++) {
        const struct part_form *part = &field->form->parts[p];
        uint32_t dimensions = value_of_sort(values, COUNT);
        unsigned count = dimensions < DIMENSIONS_MAX ? dimensions : DIMENSIONS_MAX;
        unsigned repeats = times(part, count, value_of_sort(values, SIZED) == 1);
        for (size_t i = 0; i < repeats * part->count; i++) {
            const struct number_form *form = &part->numbers[i % part->count];
            if (field->content_len - at < form->width) {
                return;
            }
            unsigned dimension = (unsigned)(i / part->count);
            uint32_t raw = little(field->content + at, form->width);
            values->at[values->count++] = (struct value){form, p, dimension, raw};
            at += form->width;
        }
    }
}

int64_t number_of(const struct number_form *form, uint32_t raw)
{
    return form->sort == SIGNED ? with_sign(raw, 8u * form->width) : (int64_t)raw;
}
