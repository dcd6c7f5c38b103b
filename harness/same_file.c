#define _POSIX_C_SOURCE 200809L

#include "same_file.h"

#include <stdlib.h>
#include <string.h>
#include <sys/stat.h>

#include "files.h"

/* What tells a file from others: device and inode; of a file that is not there yet, those of its folder, and
 * its name in it. */
struct file_identity {
    dev_t device;
    ino_t inode;
    const char *name; /* empty for a file that is there */
};

const char *base_name(const char *name)
{
    const char *slash = strrchr(name, '/');
    return slash == NULL ? name : slash + 1;
}

static bool find_folder(const char *name, struct stat *status)
{
    size_t len = (size_t)(base_name(name) - name);
    char *folder = len == 0 ? strdup(".") : strndup(name, len);
    bool found = folder != NULL && stat(folder, status) == 0;
    free(folder);
    return found;
}

/* False for what cannot be lost. */
static bool identify(struct file_name file, struct file_identity *identity)
{
    struct stat status;
    bool is_stream = strcmp(file.name, STANDARD_STREAM) == 0;
    bool is_there = (is_stream ? fstat(file.stream, &status) : stat(file.name, &status)) == 0;
    if (!is_there && (is_stream || !find_folder(file.name, &status))) {
        return false;
    }
    *identity = (struct file_identity){status.st_dev, status.st_ino, is_there ? "" : base_name(file.name)};
    return !is_there || S_ISREG(status.st_mode);
}

bool is_same_file(struct file_name one, struct file_name other)
{
    struct file_identity first, second;
    return identify(one, &first) && identify(other, &second) && first.device == second.device &&
           first.inode == second.inode && strcmp(first.name, second.name) == 0;
}

bool is_in_folder(const char *name, const char *folder)
{
    struct stat of_name, of_folder;
    return find_folder(name, &of_name) && stat(folder, &of_folder) == 0 && of_name.st_dev == of_folder.st_dev &&
           of_name.st_ino == of_folder.st_ino;
}
