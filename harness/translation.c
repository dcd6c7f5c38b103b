#include "translation.h"

bool translate(const struct bytes *sheet, size_t memory_len, struct translation *translation)
{
    return moonbleat_translate(sheet->at, sheet->len, memory_len, translation->tape, MOONBLEAT_TAPE_NUMBERS,
                               translation->masks, sizeof translation->masks, translation->records,
                               translation->answer) == 0;
}

bool is_touched(const uint8_t masks[MOONBLEAT_MASKS], uint32_t step, uint32_t element)
{
    return moonbleat_touched(masks, MOONBLEAT_MASKS, step, element) == 1;
}

void json_mask(struct json *json, const char *key, const uint8_t masks[MOONBLEAT_MASKS], uint32_t step)
{
    json_open(json, key, '[');
    for (uint32_t element = 0; element < MOONBLEAT_REGISTER_ELEMENTS; element++) {
        if (is_touched(masks, step, element)) {
            json_number(json, NULL, element);
        }
    }
    json_close(json, ']');
}

void json_masks(struct json *json, const uint8_t masks[MOONBLEAT_MASKS])
{
    json_open(json, "masks", '[');
    for (uint32_t step = 0; step < MOONBLEAT_STEPS_MAX; step++) {
        json_mask(json, NULL, masks, step);
    }
    json_close(json, ']');
}

bool is_masks_length(const char *name, const struct bytes *file)
{
    if (file->len != MOONBLEAT_MASKS) {
        complain_of(name, "it has %s bytes than the %d of masks", file->len < MOONBLEAT_MASKS ? "fewer" : "more",
                    MOONBLEAT_MASKS);
    }
    return file->len == MOONBLEAT_MASKS;
}
