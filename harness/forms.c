#include "forms.h"

#include <string.h>

#include "asm.h"
#include "fields.h"

/* The first bytes that tell text. */
enum { TOLD_BY = HEAD_BYTES };

static const char *const names[FORMS] = {
    [FORM_SHEET] = "sheet", [FORM_TRACE] = "trace", [FORM_TAPE] = "tape", [FORM_MASKS] = "masks"};

enum form find_form(const char *name)
{
    unsigned form = 0;
    while (form < FORMS && strcmp(name, names[form]) != 0) {
        form++;
    }
    return (enum form)form;
}

const char *form_name(enum form form)
{
    return names[form];
}

static bool is_blank(uint8_t byte)
{
    return byte == ' ' || byte == '\t' || byte == '\r' || byte == '\n';
}

static bool begins_with(const struct bytes *file, const void *bytes, size_t len)
{
    return file->len >= len && memcmp(file->at, bytes, len) == 0;
}

bool is_text(const struct bytes *file)
{
    bool has_mark = begins_with(file, BYTE_ORDER_MARK, strlen(BYTE_ORDER_MARK));
    if (file->len == 0 || (!has_mark && file->at[0] > '~')) {
        return false;
    }
    for (size_t i = 0; i < file->len && i < TOLD_BY; i++) {
        if ((file->at[i] < ' ' && !is_blank(file->at[i])) || file->at[i] == 0x7F) {
            return false;
        }
    }
    return true;
}

/* Whether the first word of a text begins as a number does. */
static bool begins_with_number(const struct bytes *text)
{
    size_t at = 0;
    while (at < text->len && is_blank(text->at[at])) {
        at++;
    }
    return at < text->len && (text->at[at] == '-' || (text->at[at] >= '0' && text->at[at] <= '9'));
}

enum form form_of(const struct bytes *file)
{
    static const uint8_t access[HEAD_BYTES] = {MOONBLEAT_TAG_ACCESS, MOONBLEAT_ACCESS_BYTES - HEAD_BYTES, 0};
    static const uint8_t untouched[MOONBLEAT_MASK_BYTES];
    if (is_text(file)) {
        return begins_with_number(file) ? FORM_TAPE : FORM_SHEET;
    }
    if (begins_with(file, access, sizeof access)) {
        return FORM_TRACE;
    }
    return file->len == MOONBLEAT_MASKS && begins_with(file, untouched, sizeof untouched) ? FORM_MASKS : FORM_SHEET;
}
