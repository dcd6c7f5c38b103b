#include "shown.h"

#include <inttypes.h>
#include <stdio.h>
#include <stdlib.h>
#include <string.h>

#include "kinds.h"
#include "places.h"
#include "steps.h"
#include "traces.h"
#include "vectors.h"

/* What the functions below go by. */
struct survey {
    struct refused sheet;
    const struct origins *origins;
    struct shown *shown;
    uint16_t last; /* the sort found last, + 1: elements next to each other are mostly of one */
};

/* The number of a sort in the census, + 1. */
static uint16_t find_sort(struct survey *survey, const struct traits *traits)
{
    struct census *census = &survey->shown->census;
    if (survey->last > 0 && memcmp(&census->at[survey->last - 1].traits, traits, sizeof *traits) == 0) {
        return survey->last;
    }
    uint32_t i = 0;
    while (i < census->count && memcmp(&census->at[i].traits, traits, sizeof *traits) != 0) {
        i++;
    }
    if (i == census->count) {
        census->at[census->count++] = (struct sort_count){.traits = *traits};
    }
    survey->last = (uint16_t)(i + 1);
    return survey->last;
}

/* Where the accesses of a step begin in the trace; those of a step follow each other. */
static size_t find_accesses(const struct origins *origins, unsigned step)
{
    size_t low = 0, high = origins->access_count;
    while (low < high) {
        size_t middle = low + (high - low) / 2;
        if (entry_at(origins->trace, middle).step < step) {
            low = middle + 1;
        } else {
            high = middle;
        }
    }
    return low;
}

/* -- What made an element --------------------------------------------------------------------- */

/* What a load or a store of the sheet addresses with. */
static void access_of(const struct survey *survey, unsigned number, struct access *access, struct values *values)
{
    const struct step_origin *origin = &survey->origins->steps[number];
    struct step step = {.field = origin->field};
    field_values(&step.field, &step.values);
    find_addressing(&survey->sheet, &step, origin->type, access);
    *values = step.values;
}

static uint8_t clip_of(const struct access *access)
{
    const struct view *view = &access->view;
    if (!access->has_view) {
        return 0;
    }
    if (view->columns.offset > 0 || view->columns.span < access->columns) {
        return CLIP_COLUMNS;
    }
    return view->rows.offset > 0 || view->rows.span < access->rows ? CLIP_ROWS : CLIP_WHOLE;
}

static uint8_t order_of(const struct access *access)
{
    bool in_order = true;
    for (unsigned i = 0; access->has_view && i < access->view.count; i++) {
        in_order = in_order && access->view.permutation[i] == i;
    }
    return !in_order;
}

static uint8_t made_by_clamping(uint32_t mode)
{
    switch (mode) {
    case MOONBLEAT_CLAMP_TO_EDGE:
        return MADE_BY_EDGE;
    case MOONBLEAT_CLAMP_REPEAT:
        return MADE_BY_REPEAT;
    default:
        return MADE_BY_MIRROR;
    }
}

static uint8_t made_by_load(const struct access *access, const struct place *place)
{
    switch (place->outcome) {
    case SKIPPED:
        return MADE_SKIPPED;
    case FILLED:
        return MADE_FILLED;
    default:
        return place->side == MOONBLEAT_SIDE_INSIDE ? MADE_INSIDE : made_by_clamping(access->layout.mode);
    }
}

/* Where in a block an element with a byte lies: amid it if it does in some dimension. */
static uint8_t block_of(const struct access *access, const struct place *place)
{
    uint8_t block = 0;
    for (unsigned i = 0; place->outcome == PLACED && i < access->layout.count; i++) {
        int64_t length = access->layout.dimensions[i].block;
        if (length > 1 && block != BLOCK_AMID) {
            block = place->coordinates[i].kept % length == 0 ? BLOCK_START : BLOCK_AMID;
        }
    }
    return block;
}

static void set_side(struct traits *traits, const struct place *place)
{
    traits->at[TRAIT_SIDE] = (uint8_t)place->side;
    traits->at[TRAIT_DIMENSION] = (uint8_t)(place->side == MOONBLEAT_SIDE_INSIDE ? 0 : place->dimension + 1);
}

/* The library says what becomes of an element; the tool works out the side besides. Were the two to differ, no sort
 * could be told. */
static void must_be_same(const struct place *place, const struct entry *entry)
{
    if (place->outcome != entry->sort || place->byte != entry->byte) {
        fprintf(stderr,
                "moonbleat: step %" PRIu32 ", element %" PRIu32
                ": a fault in this tool: the library's trace has another outcome\n",
                entry->step, entry->element);
        abort();
    }
}

static void load_traits(const struct survey *survey, unsigned number, struct traits *traits, unsigned count)
{
    size_t first = find_accesses(survey->origins, number);
    struct access access;
    struct values values;
    access_of(survey, number, &access, &values);
    struct traits common = traits[0];
    common.at[TRAIT_CLIP] = clip_of(&access);
    common.at[TRAIT_ORDER] = order_of(&access);
    for (unsigned i = 0; i < count; i++) {
        struct entry entry = entry_at(survey->origins->trace, first + i);
        struct place place = place_of(&access, i);
        must_be_same(&place, &entry);
        uint8_t made = made_by_load(&access, &place);
        traits[i] = common;
        traits[i].at[TRAIT_MADE] = made;
        traits[i].at[TRAIT_REMAINDER] = made == MADE_BY_REPEAT || made == MADE_BY_MIRROR;
        traits[i].at[TRAIT_BLOCK] = block_of(&access, &place);
        traits[i].at[TRAIT_START] = (uint8_t)(made == MADE_SKIPPED ? start_of(&values) + 1 : 0);
        set_side(&traits[i], &place);
    }
}

/* A step that is no load makes all of its elements alike. */
static void step_traits(const struct field *step, struct traits *traits)
{
    struct values values;
    field_values(step, &values);
    switch (step->tag) {
    case MOONBLEAT_TAG_FILL:
        traits->at[TRAIT_MADE] = MADE_BY_FILL;
        break;
    case MOONBLEAT_TAG_REDUCE:
        traits->at[TRAIT_MADE] = MADE_BY_REDUCE;
        traits->at[TRAIT_REDUCE] = (uint8_t)value_of_sort(&values, MODE);
        traits->at[TRAIT_COMBINE] = (uint8_t)(values.at[values.count - 1].raw + 1);
        break;
    case MOONBLEAT_TAG_TRANSPOSE:
        traits->at[TRAIT_MADE] = MADE_BY_TRANSPOSE;
        break;
    case MOONBLEAT_TAG_MULTIPLY_ADD:
        traits->at[TRAIT_MADE] = MADE_BY_MULTIPLY_ADD;
        break;
    default: {
        struct vector vector = vector_of(&values);
        traits->at[TRAIT_MADE] = MADE_BY_VECTOR;
        traits->at[TRAIT_MAJOR] = vector.is_column_major ? MOONBLEAT_COLUMN_MAJOR + 1 : MOONBLEAT_ROW_MAJOR + 1;
        traits->at[TRAIT_PACKED] = is_packed(vector.interpretation);
        traits->at[TRAIT_BIAS] = vector.has_bias;
        traits->at[TRAIT_INPUT] = (uint8_t)(vector.interpretation + 1);
        traits->at[TRAIT_MATRIX] = (uint8_t)(vector.matrix_kind + 1);
        break;
    }
    }
}

static struct traits common_traits(const struct step_origin *step)
{
    struct traits traits = {{0}};
    traits.at[TRAIT_KIND] = (uint8_t)(step->type[MOONBLEAT_TYPE_KIND] + 1);
    traits.at[TRAIT_EDITION] = (uint8_t)step->field.edition;
    return traits;
}

/* The traits of all elements that a step gives its register. */
static void giver_traits(const struct survey *survey, unsigned number,
                         struct traits traits[MOONBLEAT_REGISTER_ELEMENTS])
{
    const struct step_origin *step = &survey->origins->steps[number];
    unsigned count = type_element_count(step->type);
    traits[0] = common_traits(step);
    if (step->field.tag == MOONBLEAT_TAG_LOAD) {
        load_traits(survey, number, traits, count);
        return;
    }
    step_traits(&step->field, &traits[0]);
    for (unsigned i = 1; i < count; i++) {
        traits[i] = traits[0];
    }
}

/* The traits that an element has by the store that shows it, or leaves it out. */
static void set_store(struct traits *traits, const struct access *store)
{
    traits->at[TRAIT_STORE_CLIP] = clip_of(store);
    traits->at[TRAIT_STORE_ORDER] = order_of(store);
}

/* -- What stores leave out -------------------------------------------------------------------- */

/* A store's access and what leaving out one of its elements looks like. */
struct left_out {
    unsigned step;
    unsigned element;
    size_t size;
    struct traits traits;
};

/* Notes which bytes an element would have gone to: those that no later step stores to. Where no step does at all,
 * memory shows whether it did. */
static void note_shadow(struct survey *survey, const struct left_out *left_out, enum shadow shadow, int64_t byte)
{
    const struct origins *origins = survey->origins;
    struct shown *shown = survey->shown;
    size_t memory_len = survey->sheet.memory_len;
    if (byte < 0 || (uint64_t)byte + left_out->size > memory_len) {
        return;
    }
    bool is_bare = false;
    for (size_t i = (size_t)byte; i < (size_t)byte + left_out->size; i++) {
        struct shadow_byte *shadow_byte = &shown->bytes[shadow][i];
        if (stored_by(origins, i) <= left_out->step + 1 && shadow_byte->by == 0) {
            *shadow_byte = (struct shadow_byte){(uint8_t)(left_out->step + 1), (uint8_t)left_out->element};
            is_bare = is_bare || stored_by(origins, i) == 0;
        }
    }
    if (is_bare) {
        struct traits traits = left_out->traits;
        traits.at[TRAIT_OUTSIDE + shadow] = 1;
        uint16_t sort = find_sort(survey, &traits);
        shown->shadows[shadow][left_out->step][left_out->element] = sort;
        shown->census.at[sort - 1].memory++;
    }
}

static void note_left_out(struct survey *survey, const struct access *access, struct left_out *left_out, uint32_t sort)
{
    bool is_skipped = sort == MOONBLEAT_SORT_SKIPPED;
    struct place place = is_skipped ? place_unclipped(access, left_out->element) : place_of(access, left_out->element);
    set_side(&left_out->traits, &place);
    if (place.outcome == PLACED) {
        note_shadow(survey, left_out, SHADOW_UNCLIPPED, (int64_t)place.byte);
    } else if (place.outcome == DISCARDED && !is_skipped) {
        note_shadow(survey, left_out, SHADOW_OUTSIDE, byte_outside(access, &place));
        if (access->layout.mode != MOONBLEAT_CLAMP_CONSTANT) {
            note_shadow(survey, left_out, SHADOW_CLAMPED, byte_clamped(access, &place));
        }
    }
}

/* -- What is shown ---------------------------------------------------------------------------- */

static void note_all_left_out(struct survey *survey, unsigned number)
{
    const struct step_origin *step = &survey->origins->steps[number];
    size_t first = find_accesses(survey->origins, number);
    struct access access;
    struct values values;
    access_of(survey, number, &access, &values);
    struct traits traits = common_traits(step);
    set_store(&traits, &access);
    for (unsigned i = 0; i < type_element_count(step->type); i++) {
        uint32_t sort = entry_at(survey->origins->trace, first + i).sort;
        if (sort != MOONBLEAT_SORT_BYTE) {
            struct left_out left_out = {number, i, type_element_size(step->type), traits};
            note_left_out(survey, &access, &left_out, sort);
        }
    }
}

/* Whether memory shows an element of a store; if so, its traits get the shadows that lie on its bytes. */
static bool is_shown(const struct survey *survey, const struct entry *entry, size_t size, struct traits *traits)
{
    bool found = false;
    for (size_t i = entry->byte; i < entry->byte + size; i++) {
        const struct stored *stored = &survey->origins->bytes[i];
        if (stored->by != entry->step + 1 || stored->element != entry->element) {
            continue;
        }
        found = true;
        for (unsigned shadow = 0; shadow < SHADOWS; shadow++) {
            traits->at[TRAIT_OUTSIDE + shadow] |= survey->shown->bytes[shadow][i].by != 0;
        }
    }
    return found;
}

static void show_store(struct survey *survey, unsigned number)
{
    const struct step_origin *step = &survey->origins->steps[number];
    size_t first = find_accesses(survey->origins, number);
    struct traits traits[MOONBLEAT_REGISTER_ELEMENTS];
    struct access access;
    struct values values;
    access_of(survey, number, &access, &values);
    giver_traits(survey, step->giver, traits);
    for (unsigned i = 0; i < type_element_count(step->type); i++) {
        struct entry entry = entry_at(survey->origins->trace, first + i);
        if (entry.sort == MOONBLEAT_SORT_BYTE && is_shown(survey, &entry, type_element_size(step->type), &traits[i])) {
            set_store(&traits[i], &access);
            uint16_t sort = find_sort(survey, &traits[i]);
            survey->shown->stored[number][i] = sort;
            survey->shown->census.at[sort - 1].memory++;
        }
    }
}

static void show_register(struct survey *survey, unsigned reg)
{
    struct traits traits[MOONBLEAT_REGISTER_ELEMENTS];
    unsigned giver = survey->origins->givers[reg];
    if (giver == 0) {
        return;
    }
    giver_traits(survey, giver - 1, traits);
    for (unsigned i = 0; i < type_element_count(survey->origins->steps[giver - 1].type); i++) {
        uint16_t sort = find_sort(survey, &traits[i]);
        survey->shown->registers[reg][i] = sort;
        survey->shown->census.at[sort - 1].registers++;
    }
}

static void for_stores(struct survey *survey, void (*do_store)(struct survey *survey, unsigned number))
{
    for (unsigned i = 0; i < survey->origins->step_count; i++) {
        if (survey->origins->steps[i].field.tag == MOONBLEAT_TAG_STORE) {
            do_store(survey, i);
        }
    }
}

void begin_census(struct census *census)
{
    for (census->count = 0; census->count < APARTS; census->count++) {
        census->at[census->count] = (struct sort_count){.memory = 0};
        census->at[census->count].traits.at[TRAIT_MADE] = (uint8_t)(MADE_APART + census->count);
    }
}

void find_shown(const uint8_t *sheet, size_t sheet_len, size_t memory_len, const struct origins *origins,
                struct shown *shown)
{
    struct survey survey = {
        .sheet = {.sheet = sheet, .sheet_len = sheet_len, .memory_len = memory_len},
        .origins = origins,
        .shown = shown,
    };
    begin_census(&shown->census);
    memset(shown->stored, 0, sizeof shown->stored);
    memset(shown->shadows, 0, sizeof shown->shadows);
    memset(shown->registers, 0, sizeof shown->registers);
    for (unsigned i = 0; i < SHADOWS; i++) {
        memset(shown->bytes[i], 0, memory_len * sizeof shown->bytes[i][0]);
    }
    for_stores(&survey, note_all_left_out);
    for_stores(&survey, show_store);
    for (unsigned i = 0; i < MOONBLEAT_REGISTERS; i++) {
        show_register(&survey, i);
    }
}
