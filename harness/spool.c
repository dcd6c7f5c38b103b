#include "spool.h"

#include <errno.h>

#include "files.h"

FILE *open_spool(void)
{
    FILE *spool = tmpfile();
    if (spool == NULL) {
        complain("a file for the report");
    }
    return spool;
}

/* Whether all that was written to a spool is there. */
static bool is_whole(FILE *spool)
{
    if (fflush(spool) != 0) {
        return false;
    }
    if (ferror(spool)) {
        errno = EIO;
        return false;
    }
    return true;
}

bool copy_spool(FILE *spool, FILE *file)
{
    char piece[BUFSIZ];
    size_t count;
    if (!is_whole(spool)) {
        return false;
    }
    rewind(spool);
    while ((count = fread(piece, 1, sizeof piece, spool)) > 0 && fwrite(piece, 1, count, file) == count) {
    }
    return !ferror(spool) && !ferror(file);
}
