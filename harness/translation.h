/* A sheet's tape for a memory of some length, and the masks beside it: which elements each step touched. */
#ifndef TRANSLATION_H
#define TRANSLATION_H

#include <stdbool.h>
#include <stddef.h>
#include <stdint.h>

#include "files.h"
#include "json.h"
#include "moonbleat.h"

/* As the library fills it. */
struct translation {
    int32_t tape[MOONBLEAT_TAPE_NUMBERS];
    uint32_t records[1];
    uint8_t masks[MOONBLEAT_MASKS];
    uint32_t answer[MOONBLEAT_ANSWER];
};

/* Translates a sheet; false if it is refused. */
bool translate(const struct bytes *sheet, size_t memory_len, struct translation *translation);

/* Whether a step touched an element, by the masks of a sheet. */
bool is_touched(const uint8_t masks[MOONBLEAT_MASKS], uint32_t step, uint32_t element);

/* Whether a file, read to one byte more at most, has the length of masks; else says so on standard error. */
bool is_masks_length(const char *name, const struct bytes *file);

/* All masks as an array of 32, one a step. */
void json_masks(struct json *json, const uint8_t masks[MOONBLEAT_MASKS]);

/* A step's mask as an array of the elements that it touched. */
void json_mask(struct json *json, const char *key, const uint8_t masks[MOONBLEAT_MASKS], uint32_t step);

#endif
