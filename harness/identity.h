/* Which night a report is of: parts of two nights are not merged. */
#ifndef IDENTITY_H
#define IDENTITY_H

#include <stdbool.h>
#include <stdint.h>
#include <sys/stat.h>

#include "names.h"
#include "text.h"

enum { DATE_ROOM = 16, VERSION_ROOM = 32, DIGEST_ROOM = 17 };

struct identity {
    char name[NAME_ROOM];       /* the folder's, or as it was asked for */
    char date[DATE_ROOM];       /* of its newest file, by UTC: 2026-11-17 */
    char version[VERSION_ROOM]; /* of the reference */
    uint32_t edition;           /* the newest that it takes */
    uint32_t files;             /* of the night in the folder */
    char digest[DIGEST_ROOM];   /* of their names, lengths and times */
};

/* A folder's listing so far. All zeros is the empty one. */
struct listing {
    uint32_t files;
    uint64_t sum;
    int64_t newest;
};

/* Takes a file; the order does not matter. */
void list_file(struct listing *listing, const char *name, const struct stat *status);

/* The identity of a folder with some path. */
struct identity identity_of(const char *path, const struct listing *listing);

/* The name of a member by which two differ, as "digest"; NULL if they are the same. */
const char *identities_differ(const struct identity *one, const struct identity *other);

/* Adds "2026-11-17, moonbleat 2.0.0, editions 1 to 3, 83 files, digest 0123456789abcdef". */
void add_identity(struct text *text, const struct identity *identity);

#endif
