/* JSON on standard output, piece by piece. A key of NULL is an element of an array. */
#ifndef JSON_H
#define JSON_H

#include <stdbool.h>
#include <stdint.h>

/* All zeros is the start of a document. */
struct json {
    bool comma; /* something stands before the next piece */
};

void json_open(struct json *json, const char *key, char bracket);
void json_close(struct json *json, char bracket);
void json_number(struct json *json, const char *key, int64_t number);
void json_text(struct json *json, const char *key, const char *text);
/* A text that may hold any byte, as a name does. */
void json_name(struct json *json, const char *key, const char *name);
void json_flag(struct json *json, const char *key, bool flag);
void json_null(struct json *json, const char *key);

#endif
