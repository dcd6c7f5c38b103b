#include "numbers.h"

/* The value of a digit, 16 for any other character. */
static unsigned digit_value(char c)
{
    if (c >= '0' && c <= '9') {
        return (unsigned)(c - '0');
    }
    if (c >= 'a' && c <= 'f') {
        return (unsigned)(c - 'a') + 10;
    }
    if (c >= 'A' && c <= 'F') {
        return (unsigned)(c - 'A') + 10;
    }
    return 16;
}

static bool parse_digits(const char *text, size_t len, unsigned base, uint64_t *number)
{
    *number = 0;
    for (size_t i = 0; i < len; i++) {
        unsigned digit = digit_value(text[i]);
        if (digit >= base || *number > (UINT64_MAX - digit) / base) {
            return false;
        }
        *number = base * *number + digit;
    }
    return len > 0;
}

bool parse_number(const char *text, size_t len, uint64_t *number)
{
    bool hex = len > 2 && text[0] == '0' && (text[1] == 'x' || text[1] == 'X');
    return hex ? parse_digits(text + 2, len - 2, 16, number) : parse_digits(text, len, 10, number);
}

bool parse_index(const char *text, size_t len, uint32_t *index)
{
    uint64_t number;
    if (!parse_number(text, len, &number) || number > UINT32_MAX) {
        return false;
    }
    *index = (uint32_t)number;
    return true;
}

bool parse_hex_byte(const char *text, uint8_t *byte)
{
    uint64_t number;
    if (!parse_digits(text, 2, 16, &number)) {
        return false;
    }
    *byte = (uint8_t)number;
    return true;
}
