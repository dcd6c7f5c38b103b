/* Text that is kept in a nameless file until all of it is there, however long it is. */
#ifndef SPOOL_H
#define SPOOL_H

#include <stdbool.h>
#include <stdio.h>

/* NULL, and a complaint on standard error, if none can be made. */
FILE *open_spool(void);

/* Copies all that was written to a spool to a file; false and errno if one or the other failed. */
bool copy_spool(FILE *spool, FILE *file);

#endif
