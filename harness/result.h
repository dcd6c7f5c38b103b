/* The registers and the answer of a sheet or a tape that was carried out. */
#ifndef RESULT_H
#define RESULT_H

#include <stdint.h>

#include "json.h"
#include "moonbleat.h"

/* As the library fills it. */
struct result {
    uint8_t types[MOONBLEAT_TYPES];
    uint32_t elements[MOONBLEAT_ELEMENTS];
    uint32_t answer[MOONBLEAT_ANSWER];
};

/* Bytes of the registers in a file: the types, then the elements, four bytes each. */
enum { REGISTERS_BYTES = MOONBLEAT_TYPES + 4 * MOONBLEAT_ELEMENTS };

/* The registers as a file has them; elements are little-endian. */
void registers_bytes(const struct result *result, uint8_t bytes[REGISTERS_BYTES]);

/* The other way: types and elements of a file's bytes; the answer stays. */
void registers_result(const uint8_t bytes[REGISTERS_BYTES], struct result *result);

/* What the count of most answers is called. */
#define BYTE_ELEMENTS "byte-elements"

/* Prints the count of an accepted input's answer by its name. */
void print_accepted(const char *name, const uint32_t answer[4]);

/* Prints the registers, then the above. */
void print_result(const struct result *result);

/* The same as members of an object. */
void json_result(struct json *json, const struct result *result);

#endif
