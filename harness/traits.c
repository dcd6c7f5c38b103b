#include "traits.h"

#include "fields.h"
#include "kinds.h"
#include "moonbleat.h"
#include "outcomes.h"

/* What is said of elements of a load behind "that" or "which". */
static const char *const load_words[MADE_BY_FILL] = {
    [MADE_SKIPPED] = "a load skips",
    [MADE_FILLED] = "Constant fills",
    [MADE_BY_EDGE] = "ClampToEdge clamps",
    [MADE_BY_REPEAT] = "Repeat clamps",
    [MADE_BY_MIRROR] = "MirrorRepeat clamps",
    [MADE_INSIDE] = "a load reads inside its tensor",
};

/* The words of a trait's values behind "elements". */
static const char *const made_words[MADES] = {
    [MADE_BY_FILL] = "of a fill",
    [MADE_BY_REDUCE] = "of a reduce",
    [MADE_BY_TRANSPOSE] = "of a transpose",
    [MADE_BY_MULTIPLY_ADD] = "of a multiply-add",
    [MADE_BY_VECTOR] = "of a vector step",
};
static const char *const remainder_words[] = {NULL, "that a remainder clamps"};
static const char *const outside_words[] = {NULL, "where a store must discard"};
static const char *const clamped_words[] = {NULL, "where a store would clamp what it must discard"};
static const char *const unclipped_words[] = {NULL, "where a store must skip"};
static const char *const block_words[BLOCKS] = {
    [BLOCK_START] = "at the start of a block",
    [BLOCK_AMID] = "amid a block",
};
static const char *const packed_words[] = {NULL, "with a packed input"};
static const char *const bias_words[] = {NULL, "with a bias"};
static const char *const clip_words[CLIPS] = {
    [CLIP_WHOLE] = "through a view that takes the whole matrix",
    [CLIP_ROWS] = "through a view that clips rows",
    [CLIP_COLUMNS] = "through a view that clips columns",
};
static const char *const order_words[] = {NULL, "through a view that permutes"};
static const char *const store_clip_words[CLIPS] = {
    [CLIP_WHOLE] = "stored through a view that takes the whole matrix",
    [CLIP_ROWS] = "stored through a view that clips rows",
    [CLIP_COLUMNS] = "stored through a view that clips columns",
};
static const char *const store_order_words[] = {NULL, "stored through a view that permutes"};
static const char *const start_words[] = {
    [FROM_OBJECT + 1] = "of an object",
    [FROM_REGISTER + 1] = "of what its register holds",
    [FROM_ZEROS + 1] = "of zeros",
};

#define WORDS(array) .values = sizeof(array) / sizeof((array)[0]), .words = (array)
/* A trait that is a number + `from`, written by a name behind `before`. */
#define NUMBER(before_words, last, from_number, namer) \
    .values = (last) + 1 + (from_number), .before = (before_words), .from = (from_number), .name_of = (namer)

static const struct trait_form {
    const char *name;
    unsigned values;
    const char *const *words;
    const char *before;
    unsigned from;
    const char *(*name_of)(uint32_t number);
} forms[TRAITS] = {
    [TRAIT_MADE] = {"made", WORDS(made_words)},
    [TRAIT_REMAINDER] = {"remainder", WORDS(remainder_words)},
    [TRAIT_OUTSIDE] = {"outside", WORDS(outside_words)},
    [TRAIT_CLAMPED] = {"clamped", WORDS(clamped_words)},
    [TRAIT_UNCLIPPED] = {"unclipped", WORDS(unclipped_words)},
    [TRAIT_BLOCK] = {"block", WORDS(block_words)},
    [TRAIT_SIDE] = {"side", NUMBER("", MOONBLEAT_SIDE_ABOVE, 0, side_name)},
    [TRAIT_DIMENSION] = {"dimension", NUMBER("in dimension ", DIMENSIONS_MAX - 1, 1, NULL)},
    [TRAIT_REDUCE] = {"mode", NUMBER("by ", MOONBLEAT_REDUCE_2X2, 0, reduce_mode_name)},
    [TRAIT_COMBINE] = {"combine", NUMBER("with ", MOONBLEAT_COMBINE_XOR, 1, combine_name)},
    [TRAIT_MAJOR] = {"memory_layout", NUMBER("with a matrix that is ", MOONBLEAT_COLUMN_MAJOR, 1, memory_layout_name)},
    [TRAIT_PACKED] = {"packed", WORDS(packed_words)},
    [TRAIT_BIAS] = {"bias", WORDS(bias_words)},
    [TRAIT_INPUT] = {"input", NUMBER("with an input as ", MOONBLEAT_PACKED_U8, 1, interpretation_name)},
    [TRAIT_MATRIX] = {"matrix", NUMBER("with a matrix of ", MOONBLEAT_S32, 1, kind_name)},
    [TRAIT_CLIP] = {"clip", WORDS(clip_words)},
    [TRAIT_ORDER] = {"permuted", WORDS(order_words)},
    [TRAIT_STORE_CLIP] = {"store_clip", WORDS(store_clip_words)},
    [TRAIT_STORE_ORDER] = {"store_permuted", WORDS(store_order_words)},
    [TRAIT_START] = {"start", WORDS(start_words)},
    [TRAIT_KIND] = {"kind", NUMBER("as ", MOONBLEAT_S32, 1, kind_name)},
    [TRAIT_EDITION] = {"edition", NUMBER("in edition ", MOONBLEAT_EDITION_MAX, 0, NULL)},
};

bool has_traits(const struct traits *traits, const struct traits *pattern)
{
    for (unsigned i = 0; i < TRAITS; i++) {
        if (pattern->at[i] != 0 && pattern->at[i] != traits->at[i]) {
            return false;
        }
    }
    return true;
}

unsigned count_traits(const struct traits *traits)
{
    unsigned count = 0;
    for (unsigned i = 0; i < TRAITS; i++) {
        count += traits->at[i] != 0;
    }
    return count;
}

bool is_apart(const struct traits *traits)
{
    return traits->at[TRAIT_MADE] >= MADE_APART;
}

const char *trait_name(unsigned trait)
{
    return forms[trait].name;
}

unsigned trait_values(unsigned trait)
{
    return forms[trait].values;
}

static bool is_of_load(unsigned made)
{
    return made != 0 && made < MADE_BY_FILL;
}

static void add_trait(struct text *text, enum trait trait, unsigned value)
{
    const struct trait_form *form = &forms[trait];
    if (trait == TRAIT_MADE && is_of_load(value)) {
        add_text(text, " that %s", load_words[value]);
    } else if (form->words != NULL) {
        add_text(text, " %s", form->words[value]);
    } else if (form->name_of != NULL) {
        add_text(text, " %s%s", form->before, form->name_of(value - form->from));
    } else {
        add_text(text, " %s%u", form->before, value - form->from);
    }
}

static void add_traits(struct text *text, const struct traits *traits, enum trait first, enum trait end)
{
    for (enum trait i = first; i < end; i++) {
        if (traits->at[i] != 0) {
            add_trait(text, i, traits->at[i]);
        }
    }
}

static bool has_any(const struct traits *traits, enum trait first, enum trait end)
{
    bool has = false;
    for (enum trait i = first; i < end; i++) {
        has = has || traits->at[i] != 0;
    }
    return has;
}

/* Where what made the elements is left open, but they have traits of one step alone, it is that step. */
void add_pattern(struct text *text, const struct traits *pattern)
{
    struct traits named = *pattern;
    if (named.at[TRAIT_MADE] == 0 && has_any(pattern, TRAIT_REDUCE, TRAIT_MAJOR)) {
        named.at[TRAIT_MADE] = MADE_BY_REDUCE;
    } else if (named.at[TRAIT_MADE] == 0 && has_any(pattern, TRAIT_MAJOR, TRAIT_CLIP)) {
        named.at[TRAIT_MADE] = MADE_BY_VECTOR;
    }
    if (is_apart(pattern)) {
        add_apart(text, pattern, SIZE_MAX);
        return;
    }
    add_text(text, "elements");
    add_traits(text, &named, TRAIT_MADE, TRAITS);
}

void add_apart(struct text *text, const struct traits *traits, size_t count)
{
    static const struct {
        const char *noun;
        const char *rest;
    } words[MADES - MADE_APART] = {
        [MADE_BY_NONE - MADE_APART] = {"place", " that no step writes"},
        [MADE_IN_TRACE - MADE_APART] = {"trace", ""},
        [MADE_BY_REFUSAL - MADE_APART] = {"refusal", ""},
    };
    unsigned number = traits->at[TRAIT_MADE] - (unsigned)MADE_APART;
    add_text(text, "%s%s%s", words[number].noun, plural(count), words[number].rest);
}

void add_making(struct text *text, const struct traits *traits)
{
    unsigned made = traits->at[TRAIT_MADE];
    if (is_of_load(made)) {
        add_text(text, ", which %s", load_words[made]);
        add_traits(text, traits, TRAIT_SIDE, TRAIT_REDUCE);
    } else if (made == 0) {
        add_text(text, ", which it must %s", traits->at[TRAIT_UNCLIPPED] != 0 ? "skip" : "discard");
        add_traits(text, traits, TRAIT_SIDE, TRAIT_REDUCE);
    } else if (made != MADE_BY_FILL && made != MADE_BY_TRANSPOSE && made != MADE_BY_MULTIPLY_ADD) {
        add_text(text, ",");
        add_traits(text, traits, TRAIT_REDUCE, TRAIT_PACKED);
        add_traits(text, traits, TRAIT_BIAS, TRAIT_CLIP);
    }
}
