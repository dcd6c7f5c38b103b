#include "sheet_file.h"

#include <stdlib.h>

#include "forms.h"

bool assemble_file(const char *name, const struct bytes *text, struct assembly *assembly)
{
    *assembly = (struct assembly){.error_count = 0};
    if (text->len > SHEET_TEXT_MAX) {
        complain_of(name, "longer than %d bytes", SHEET_TEXT_MAX);
        return false;
    }
    if (!assemble((const char *)text->at, text->len, assembly)) {
        print_asm_errors(name, assembly);
        return false;
    }
    return true;
}

bool take_sheet(const char *name, struct bytes *file)
{
    if (!is_text(file)) {
        file->len = file->len < SHEET_LIMIT ? file->len : SHEET_LIMIT;
        return true;
    }
    struct assembly assembly;
    bool done = assemble_file(name, file, &assembly);
    free(file->at);
    file->at = NULL;
    if (done) {
        *file = assembly.sheet;
        assembly.sheet.at = NULL;
    }
    free_assembly(&assembly);
    return done;
}

bool read_sheet(const char *name, struct bytes *sheet)
{
    return read_file(name, (size_t)SHEET_TEXT_MAX + 1, sheet) && take_sheet(name, sheet);
}
