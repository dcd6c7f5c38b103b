#include "json.h"

#include <inttypes.h>
#include <stdio.h>

#include "names.h"

static void print_text(const char *text)
{
    putchar('"');
    for (; *text != '\0'; text++) {
        if (*text == '"' || *text == '\\') {
            putchar('\\');
        }
        putchar(*text);
    }
    putchar('"');
}

/* A key is a name in which blanks and hyphens are underscores. */
static void print_key(struct json *json, const char *key)
{
    if (json->comma) {
        putchar(',');
    }
    json->comma = true;
    if (key == NULL) {
        return;
    }
    putchar('"');
    for (; *key != '\0'; key++) {
        putchar(*key == ' ' || *key == '-' ? '_' : *key);
    }
    fputs("\":", stdout);
}

void json_open(struct json *json, const char *key, char bracket)
{
    print_key(json, key);
    putchar(bracket);
    json->comma = false;
}

void json_close(struct json *json, char bracket)
{
    putchar(bracket);
    json->comma = true;
}

void json_number(struct json *json, const char *key, int64_t number)
{
    print_key(json, key);
    printf("%" PRId64, number);
}

void json_text(struct json *json, const char *key, const char *text)
{
    print_key(json, key);
    print_text(text);
}

void json_name(struct json *json, const char *key, const char *name)
{
    print_key(json, key);
    put_json(stdout, name);
}

void json_flag(struct json *json, const char *key, bool flag)
{
    print_key(json, key);
    fputs(flag ? "true" : "false", stdout);
}

void json_null(struct json *json, const char *key)
{
    print_key(json, key);
    fputs("null", stdout);
}
