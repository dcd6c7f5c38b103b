/* A night's report as one HTML page that can be sent: no script, nothing from outside. */
#ifndef PAGE_H
#define PAGE_H

#include <stdio.h>

#include "report.h"

struct page;

/* NULL, and a complaint on standard error, if there is no room for it. */
struct page *new_page(const struct night *night);
void free_page(struct page *page);

/* Takes the findings of the next sheet. */
void put_page_sheet(struct page *page, const struct night *night, const char *name, const struct finding *findings);

/* Puts the page together behind the last sheet; gives the spool that has it, which stays the page's. NULL,
 * and a complaint on standard error, if that fails. */
FILE *finish_page(struct page *page, struct night *night);

#endif
