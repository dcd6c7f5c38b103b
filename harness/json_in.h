/* JSON as it is read, piece by piece, from a file. After the first fault nothing more is read, and each
 * function gives false. */
#ifndef JSON_IN_H
#define JSON_IN_H

#include <stdbool.h>
#include <stddef.h>
#include <stdint.h>
#include <stdio.h>

struct json_in {
    FILE *file;
    size_t line; /* from 1 */
    bool failed;
};

/* Marks the text as faulty, at the line reached; gives false. */
bool json_fail(struct json_in *json);

/* Reads a sign such as { or , past blanks. */
bool json_sign(struct json_in *json, char sign);

/* Reads that sign if it comes next. */
bool json_try(struct json_in *json, char sign);

/* Reads a string as bytes: a lone surrogate U+DC80 to U+DCFF is the byte that put_json wrote so. A
 * string with a 0, or too long for the room, is a fault. */
bool json_string(struct json_in *json, char *room, size_t room_len);

/* Read a whole number of 32 or 64 bits. */
bool json_number32(struct json_in *json, uint32_t *number);
bool json_number64(struct json_in *json, uint64_t *number);

/* Passes over any value. */
bool json_skip(struct json_in *json);

/* Reads this key and its colon. */
bool json_key(struct json_in *json, const char *key);

/* Read this key and its value, which must be this one. */
bool json_same_string(struct json_in *json, const char *key, const char *value);
bool json_same_number(struct json_in *json, const char *key, uint64_t value);

/* Whether the file ends here. */
bool json_end(struct json_in *json);

#endif
