/* A night's report: what was found for each sheet and card, then the totals. */
#ifndef REPORT_H
#define REPORT_H

#include <stdbool.h>
#include <stddef.h>
#include <stdio.h>

#include "finding.h"
#include "names.h"
#include "night.h"

/* A form of the report of a night whose causes are known. Sheets come in order, the first with number 0. The parts
 * before and behind them give false if what was found cannot be read again. NULL: there is nothing to say. */
struct form {
    bool (*begin)(FILE *file, struct night *night);
    void (*sheet)(FILE *file, const struct night *night, size_t number, const char *name,
                  const struct finding *findings);
    bool (*end)(FILE *file, struct night *night);
};

extern const struct form text_form, csv_form, json_form;

/* Writes what was found for a sheet and a card of a night: "differs: byte 300 ..". */
void put_night_finding(const struct sink *sink, const struct finding *finding, const char *sheet, const char *card);

#endif
