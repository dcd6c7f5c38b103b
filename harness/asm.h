/* The text form of a sheet into bytes; docs/SHEETS.md describes it. */
#ifndef ASM_H
#define ASM_H

#include <stdbool.h>
#include <stddef.h>

#include "files.h"
#include "text.h"

/* Texts of more than a megabyte are no sheets of people. */
enum { SHEET_TEXT_MAX = 1 << 20 };

/* What some editors put before a text; it is passed over. */
#define BYTE_ORDER_MARK "\xEF\xBB\xBF"

/* Which line wrote the bytes of the sheet from `at` on. */
struct asm_origin {
    size_t at;
    size_t line;
    size_t column;
    bool faulty; /* an error was reported for this field */
};

struct asm_error {
    size_t line; /* both from 1 */
    size_t column;
    struct text sentence;
};

/* How many errors are kept and printed; all are counted. */
enum { ASM_ERRORS_KEPT = 10 };

struct assembly {
    struct bytes sheet;  /* to be freed with free_assembly */
    bool allows_refused; /* the text has the line `allow refused` */
    struct asm_origin *origins;
    size_t origin_count;
    size_t last_line;
    size_t error_count;
    struct asm_error errors[ASM_ERRORS_KEPT + 1]; /* the first ones in the text's order, and a place to sort in */
};

/* Makes a sheet of a text; true if the text has no error. Of a text that allows it the sheet may
 * be one that the library refuses to read; of any other it is not. */
bool assemble(const char *text, size_t len, struct assembly *assembly);

/* The line that wrote a byte of the sheet; of the byte behind the last, the text's last line. */
size_t asm_line_of(const struct assembly *assembly, size_t byte);

/* Prints the kept errors on standard error, each as `name:line:column: sentence`. */
void print_asm_errors(const char *name, const struct assembly *assembly);

void free_assembly(struct assembly *assembly);

#endif
