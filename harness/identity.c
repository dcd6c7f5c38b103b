#define _XOPEN_SOURCE 700

#include "identity.h"

#include <inttypes.h>
#include <stdio.h>
#include <stdlib.h>
#include <string.h>
#include <time.h>

#include "hash.h"
#include "moonbleat.h"
#include "same_file.h"

/* A sum does not depend on the order in which a folder gives its names. */
void list_file(struct listing *listing, const char *name, const struct stat *status)
{
    int64_t numbers[] = {status->st_size, status->st_mtime};
    uint64_t hash = hash_bytes(HASH_START, name, strlen(name) + 1);
    listing->sum += hash_bytes(hash, numbers, sizeof numbers);
    listing->newest = listing->files == 0 || numbers[1] > listing->newest ? numbers[1] : listing->newest;
    listing->files++;
}

/* The last name of a path; of one such as "." that of the folder which it leads to. */
static void folder_name(const char *path, char name[NAME_ROOM])
{
    char *whole = realpath(path, NULL);
    const char *last = whole == NULL ? path : base_name(whole);
    snprintf(name, NAME_ROOM, "%s", last[0] == '\0' ? path : last);
    free(whole);
}

struct identity identity_of(const char *path, const struct listing *listing)
{
    struct identity identity = {.edition = MOONBLEAT_EDITION_MAX, .files = listing->files};
    time_t newest = (time_t)listing->newest;
    struct tm day;
    folder_name(path, identity.name);
    if (gmtime_r(&newest, &day) != NULL) {
        strftime(identity.date, sizeof identity.date, "%Y-%m-%d", &day);
    }
    snprintf(identity.version, sizeof identity.version, "%d.%d.%d", MOONBLEAT_VERSION_MAJOR, MOONBLEAT_VERSION_MINOR,
             MOONBLEAT_VERSION_PATCH);
    snprintf(identity.digest, sizeof identity.digest, "%016" PRIx64, listing->sum);
    return identity;
}

const char *identities_differ(const struct identity *one, const struct identity *other)
{
    if (strcmp(one->name, other->name) != 0) {
        return "name";
    }
    if (strcmp(one->date, other->date) != 0) {
        return "date";
    }
    if (strcmp(one->version, other->version) != 0 || one->edition != other->edition) {
        return "version";
    }
    return one->files != other->files || strcmp(one->digest, other->digest) != 0 ? "digest" : NULL;
}

void add_identity(struct text *text, const struct identity *identity)
{
    add_text(text, "%s, moonbleat %s, editions 1 to %" PRIu32 ", %" PRIu32 " file%s, digest %s", identity->date,
             identity->version, identity->edition, identity->files, plural(identity->files), identity->digest);
}
