/* A night's folder: which sheets and cards its files name. Only names are kept. */
#ifndef FOLDER_H
#define FOLDER_H

#include <dirent.h>
#include <stdbool.h>
#include <stdint.h>

#include "cards.h"
#include "finding.h"
#include "identity.h"
#include "judged.h"
#include "list.h"

/* The part of a folder's sheets that one call takes, from 1; 1 of 1 is all. */
struct shard {
    uint32_t part;
    uint32_t parts;
};

struct folder {
    struct identity identity;
    DIR *stream;
    struct location location;
    struct list sheets; /* of the shard */
    struct list cards;  /* of the whole folder */
};

/* Lists a folder's sheets and cards; says on standard error what is wrong, and which files are no
 * night's. */
bool open_folder(const char *path, const struct shard *shard, struct folder *folder);

void close_folder(struct folder *folder);

/* Whether an output would not be one of the folder's files, which the next night reads as a sheet's or a
 * card's; else says so on standard error. */
bool is_kept_apart(const char *path, const char *out);

/* Which part of so many a sheet belongs to. Its name alone decides, so that no sheet is lost or taken
 * twice where one machine sees a file earlier than another. */
uint32_t shard_of(const char *name, uint32_t parts);

/* Judges cards of a folder on a sheet; false if memory runs out. */
bool judge_sheet(const struct folder *folder, const struct list *cards, const char *name, struct judged *judged);

#endif
