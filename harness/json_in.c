#include "json_in.h"

#include <string.h>

/* Room for a string that is compared, more than any has that it is compared with. */
enum { STRING_ROOM = 512 };

bool json_fail(struct json_in *json)
{
    json->failed = true;
    return false;
}

/* The next character that is no blank, left to be read. */
static int peek(struct json_in *json)
{
    int c = getc(json->file);
    while (c == ' ' || c == '\t' || c == '\r' || c == '\n') {
        json->line += c == '\n';
        c = getc(json->file);
    }
    ungetc(c, json->file);
    return c;
}

bool json_try(struct json_in *json, char sign)
{
    if (json->failed || peek(json) != sign) {
        return false;
    }
    getc(json->file);
    return true;
}

bool json_sign(struct json_in *json, char sign)
{
    return json_try(json, sign) || json_fail(json);
}

/* -- Strings ---------------------------------------------------------------------------------- */

static int digit_value(int c)
{
    static const char digits[] = "0123456789abcdef0123456789ABCDEF";
    const char *found = c <= 0 ? NULL : strchr(digits, c);
    return found == NULL ? -1 : (int)((found - digits) % 16);
}

/* The four digits of \uXXXX. */
static bool read_unit(struct json_in *json, uint32_t *unit)
{
    *unit = 0;
    for (int i = 0; i < 4; i++) {
        int value = digit_value(getc(json->file));
        if (value < 0) {
            return json_fail(json);
        }
        *unit = *unit << 4 | (uint32_t)value;
    }
    return true;
}

/* A code point of one \uXXXX, or of two that are a pair. */
static bool read_escaped_point(struct json_in *json, uint32_t *point)
{
    uint32_t low;
    if (!read_unit(json, point)) {
        return false;
    }
    if (*point < 0xD800 || *point > 0xDBFF) {
        return true;
    }
    if (getc(json->file) != '\\' || getc(json->file) != 'u' || !read_unit(json, &low) || low < 0xDC00 || low > 0xDFFF) {
        return json_fail(json);
    }
    *point = 0x10000 + ((*point - 0xD800) << 10) + (low - 0xDC00);
    return true;
}

/* Writes a code point as UTF-8; gives its length. */
static size_t write_point(uint32_t point, char bytes[4])
{
    if (point >= 0xDC80 && point <= 0xDCFF) {
        bytes[0] = (char)(point - 0xDC00);
        return 1;
    }
    if (point < 0x80) {
        bytes[0] = (char)point;
        return 1;
    }
    size_t length = point < 0x800 ? 2 : point < 0x10000 ? 3 : 4;
    for (size_t i = length; i > 1; i--) {
        bytes[i - 1] = (char)(0x80 | (point & 0x3F));
        point >>= 6;
    }
    bytes[0] = (char)((0xF00u >> length & 0xF0u) | point);
    return length;
}

/* What stands after a backslash, as bytes; their number, 0 for a fault. */
static size_t read_escape(struct json_in *json, char bytes[4])
{
    static const char names[] = "\"\\/bfnrt", values[] = "\"\\/\b\f\n\r\t";
    int c = getc(json->file);
    if (c == 'u') {
        uint32_t point;
        return read_escaped_point(json, &point) && point != 0 ? write_point(point, bytes) : 0;
    }
    const char *found = c <= 0 ? NULL : strchr(names, c);
    bytes[0] = found == NULL ? '\0' : values[found - names];
    return found != NULL;
}

bool json_string(struct json_in *json, char *room, size_t room_len)
{
    size_t len = 0;
    if (!json_sign(json, '"')) {
        return false;
    }
    for (int c = getc(json->file); c != '"'; c = getc(json->file)) {
        char bytes[4] = {(char)c};
        size_t count = c == '\\' ? read_escape(json, bytes) : 1;
        if (c < ' ' || count == 0 || count >= room_len - len) {
            return json_fail(json);
        }
        memcpy(room + len, bytes, count);
        len += count;
    }
    room[len] = '\0';
    return true;
}

/* -- Numbers and keys ------------------------------------------------------------------------- */

bool json_number64(struct json_in *json, uint64_t *number)
{
    if (json->failed) {
        return false;
    }
    int c = peek(json);
    *number = 0;
    if (c < '0' || c > '9') {
        return json_fail(json);
    }
    for (c = getc(json->file); c >= '0' && c <= '9'; c = getc(json->file)) {
        uint64_t digit = (uint64_t)(c - '0');
        if (*number > (UINT64_MAX - digit) / 10) {
            return json_fail(json);
        }
        *number = 10 * *number + digit;
    }
    ungetc(c, json->file);
    return true;
}

bool json_number32(struct json_in *json, uint32_t *number)
{
    uint64_t wide = 0;
    bool done = json_number64(json, &wide);
    *number = (uint32_t)wide;
    return done && (wide <= UINT32_MAX || json_fail(json));
}

/* Reads this string. */
static bool read_same(struct json_in *json, const char *text)
{
    char room[STRING_ROOM];
    return json_string(json, room, sizeof room) && (strcmp(room, text) == 0 || json_fail(json));
}

bool json_key(struct json_in *json, const char *key)
{
    return read_same(json, key) && json_sign(json, ':');
}

bool json_same_string(struct json_in *json, const char *key, const char *value)
{
    return json_key(json, key) && read_same(json, value);
}

bool json_same_number(struct json_in *json, const char *key, uint64_t value)
{
    uint64_t number;
    return json_key(json, key) && json_number64(json, &number) && (number == value || json_fail(json));
}

/* Passes over a string, however long. */
static bool skip_string(struct json_in *json)
{
    getc(json->file);
    for (int c = getc(json->file); c != '"'; c = getc(json->file)) {
        c = c == '\\' ? getc(json->file) : c;
        if (c == EOF) {
            return json_fail(json);
        }
    }
    return true;
}

/* Brackets are counted, not matched: what is passed over says nothing. */
bool json_skip(struct json_in *json)
{
    size_t depth = 0;
    while (!json->failed) {
        int c = peek(json);
        bool opens = c == '{' || c == '[', closes = c == '}' || c == ']';
        if (c == EOF || (depth == 0 && (closes || c == ','))) {
            return json_fail(json);
        }
        if (c == '"') {
            skip_string(json);
        } else {
            getc(json->file);
        }
        depth += opens;
        depth -= closes;
        c = peek(json);
        if (depth == 0 && (c == ',' || c == '}' || c == ']')) {
            return !json->failed;
        }
    }
    return false;
}

bool json_end(struct json_in *json)
{
    return !json->failed && (peek(json) == EOF || json_fail(json));
}
