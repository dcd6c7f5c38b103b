/* Which files are the same, by device and inode, whatever they are called. */
#ifndef SAME_FILE_H
#define SAME_FILE_H

#include <stdbool.h>

/* A file by its name, `-` being a standard stream: STDIN_FILENO of what is read, STDOUT_FILENO of what is
 * written. */
struct file_name {
    const char *name;
    int stream;
};

/* Whether two names lead to one file that can be lost, there already or still to be made. Devices and pipes
 * cannot be lost. */
bool is_same_file(struct file_name one, struct file_name other);

/* Whether a file is, or would be, in a folder. */
bool is_in_folder(const char *name, const char *folder);

/* A name without its folders. */
const char *base_name(const char *name);

#endif
