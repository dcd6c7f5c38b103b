/* Names of files as text that can be sent: a name may hold any byte but 0 and a slash. */
#ifndef NAMES_H
#define NAMES_H

#include <stdio.h>

#include "text.h"

/* Room for a name, which has at most 255 bytes. */
enum { NAME_ROOM = 256 };

/* Where text is written to, and how: as it stands, as part of an HTML page, or between the quotes of a
 * CSV file. */
struct sink {
    FILE *file;
    void (*put)(FILE *file, const char *text);
};

void put_plain(FILE *file, const char *text);
void put_html(FILE *file, const char *text);
void put_quoted(FILE *file, const char *text);

/* Writes a name for a reader: as it stands if it is plain (letters of any script, digits, signs). Else
 * it gets double quotes, and what a reader could not see or a line could not hold is written as \n,
 * \t, \", \\ or \xHH. */
void put_name(const struct sink *sink, const char *name);

/* Writes a word of the command line for a message: as it stands, blanks and all, but in double quotes and
 * escaped as above if it has what a reader could not see. */
void put_word(FILE *file, const char *word);

/* The same as a text, for a longer sentence. */
struct text shown(const char *word);

/* Writes a sentence, in which only what could not be seen is written as \n, \t or \xHH. */
void put_sentence(const struct sink *sink, const char *text);

/* Write a text as a field of a CSV file, or as a JSON string. In JSON a byte that is no UTF-8 becomes a
 * lone surrogate, U+DC80 to U+DCFF, as in Python's file names. */
void put_csv(FILE *file, const char *text);
void put_json(FILE *file, const char *text);

#endif
