#include "result.h"

#include <inttypes.h>
#include <stddef.h>
#include <stdio.h>
#include <string.h>

#include "kinds.h"

void registers_bytes(const struct result *result, uint8_t bytes[REGISTERS_BYTES])
{
    memcpy(bytes, result->types, MOONBLEAT_TYPES);
    uint8_t *at = bytes + MOONBLEAT_TYPES;
    for (size_t i = 0; i < MOONBLEAT_ELEMENTS; i++) {
        for (unsigned shift = 0; shift < 32; shift += 8) {
            *at++ = (uint8_t)(result->elements[i] >> shift);
        }
    }
}

void registers_result(const uint8_t bytes[REGISTERS_BYTES], struct result *result)
{
    memcpy(result->types, bytes, MOONBLEAT_TYPES);
    const uint8_t *at = bytes + MOONBLEAT_TYPES;
    for (size_t i = 0; i < MOONBLEAT_ELEMENTS; i++) {
        result->elements[i] = 0;
        for (unsigned shift = 0; shift < 32; shift += 8) {
            result->elements[i] |= (uint32_t)*at++ << shift;
        }
    }
}

/* The width of the widest value. */
static int value_width(uint8_t kind, const uint32_t *elements, size_t count)
{
    int widest = 0;
    for (size_t i = 0; i < count; i++) {
        int width = snprintf(NULL, 0, "%" PRId64, element_value(kind, elements[i]));
        widest = width > widest ? width : widest;
    }
    return widest;
}

static void print_matrix(const uint8_t *type, const uint32_t *elements)
{
    uint8_t kind = type[MOONBLEAT_TYPE_KIND];
    size_t columns = type[MOONBLEAT_TYPE_COLUMNS];
    size_t count = type[MOONBLEAT_TYPE_ROWS] * columns;
    int width = value_width(kind, elements, count);
    for (size_t i = 0; i < count; i++) {
        const char *end = (i + 1) % columns == 0 ? "\n" : "";
        printf(" %*" PRId64 "%s", width, element_value(kind, elements[i]), end);
    }
}

static void print_register(unsigned number, const uint8_t *type, const uint32_t *elements)
{
    if (type[MOONBLEAT_TYPE_ROWS] == 0) {
        printf("register %u: empty\n", number);
        return;
    }
    printf("register %u: %u by %u of %s\n", number, (unsigned)type[MOONBLEAT_TYPE_ROWS],
           (unsigned)type[MOONBLEAT_TYPE_COLUMNS], kind_name(type[MOONBLEAT_TYPE_KIND]));
    print_matrix(type, elements);
}

void print_accepted(const char *name, const uint32_t answer[4])
{
    printf("accepted, %s: %" PRIu32 "\n", name, answer[MOONBLEAT_BYTE_ELEMENTS]);
}

/* The type and the elements of a register. */
static const uint8_t *type_of(const struct result *result, unsigned number)
{
    return result->types + (size_t)MOONBLEAT_TYPE_BYTES * number;
}

static const uint32_t *elements_of(const struct result *result, unsigned number)
{
    return result->elements + (size_t)MOONBLEAT_REGISTER_ELEMENTS * number;
}

void print_result(const struct result *result)
{
    for (unsigned i = 0; i < MOONBLEAT_REGISTERS; i++) {
        print_register(i, type_of(result, i), elements_of(result, i));
    }
    print_accepted(BYTE_ELEMENTS, result->answer);
}

static void json_matrix(struct json *json, const uint8_t *type, const uint32_t *elements)
{
    json_open(json, NULL, '{');
    json_text(json, "kind", kind_name(type[MOONBLEAT_TYPE_KIND]));
    json_number(json, "rows", type[MOONBLEAT_TYPE_ROWS]);
    json_number(json, "columns", type[MOONBLEAT_TYPE_COLUMNS]);
    json_open(json, "elements", '[');
    for (size_t row = 0; row < type[MOONBLEAT_TYPE_ROWS]; row++) {
        json_open(json, NULL, '[');
        for (size_t column = 0; column < type[MOONBLEAT_TYPE_COLUMNS]; column++) {
            json_number(json, NULL, element_value(type[MOONBLEAT_TYPE_KIND], *elements++));
        }
        json_close(json, ']');
    }
    json_close(json, ']');
    json_close(json, '}');
}

void json_result(struct json *json, const struct result *result)
{
    json_number(json, BYTE_ELEMENTS, result->answer[MOONBLEAT_BYTE_ELEMENTS]);
    json_open(json, "registers", '[');
    for (unsigned i = 0; i < MOONBLEAT_REGISTERS; i++) {
        if (type_of(result, i)[MOONBLEAT_TYPE_ROWS] == 0) {
            json_null(json, NULL);
        } else {
            json_matrix(json, type_of(result, i), elements_of(result, i));
        }
    }
    json_close(json, ']');
}
