#include "kinds.h"

#include <stddef.h>

#include "moonbleat.h"

static const struct kind {
    const char *name;
    unsigned bits;
    bool has_sign;
} kinds[] = {
    [MOONBLEAT_U8] = {"u8", 8, false},    [MOONBLEAT_S8] = {"s8", 8, true},    [MOONBLEAT_U16] = {"u16", 16, false},
    [MOONBLEAT_S16] = {"s16", 16, true},  [MOONBLEAT_U32] = {"u32", 32, false}, [MOONBLEAT_S32] = {"s32", 32, true},
};

static const struct kind *find_kind(uint32_t kind)
{
    return kind < sizeof kinds / sizeof kinds[0] ? &kinds[kind] : NULL;
}

const char *kind_name(uint32_t kind)
{
    const struct kind *found = find_kind(kind);
    return found == NULL ? NULL : found->name;
}

const char *interpretation_name(uint32_t interpretation)
{
    switch (interpretation) {
    case MOONBLEAT_PACKED_S8:
        return "packed-s8";
    case MOONBLEAT_PACKED_U8:
        return "packed-u8";
    default:
        return kind_name(interpretation);
    }
}

bool is_packed(uint32_t interpretation)
{
    return interpretation == MOONBLEAT_PACKED_S8 || interpretation == MOONBLEAT_PACKED_U8;
}

unsigned kind_bits(uint32_t kind)
{
    const struct kind *found = find_kind(kind);
    return found == NULL ? 32 : found->bits;
}

int64_t with_sign(uint32_t bits, unsigned width)
{
    int64_t limit = INT64_C(1) << (width - 1);
    int64_t value = bits;
    return value < limit ? value : value - 2 * limit;
}

int64_t element_value(uint32_t kind, uint32_t bits)
{
    const struct kind *found = find_kind(kind);
    return found != NULL && found->has_sign ? with_sign(bits, found->bits) : (int64_t)bits;
}

int64_t element_low(uint32_t kind)
{
    const struct kind *found = find_kind(kind);
    return found != NULL && found->has_sign ? -(INT64_C(1) << (found->bits - 1)) : 0;
}
