/* Traces, tapes and masks in words, as files have them: without their sheet. */
#ifndef SHOW_FILES_H
#define SHOW_FILES_H

#include "command.h"
#include "files.h"

/* Each prints what a file holds, in words or as JSON, and gives the exit status. */
int show_trace(const struct request *request, const struct bytes *file);
int show_tape(const struct request *request, const struct bytes *file);
int show_masks(const struct request *request, const struct bytes *file);

#endif
