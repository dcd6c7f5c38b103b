/* divisions: what a sheet's layouts cost in divisions. */
#include "command.h"
#include "counts.h"
#include "moonbleat.h"

static int do_divisions(const struct request *request)
{
    return answer_count(&divisions_command, request, moonbleat_divisions, "divisions");
}

const struct command divisions_command = {
    .name = "divisions",
    .files = "SHEET",
    .files_min = 1,
    .files_max = 1,
    .takes = SET(OPTION_MEMORY) | SET(OPTION_JSON),
    .summary = "count the divisions by spans that the sheet's loads and stores take",
    .details = "Rule 3 of docs/SHEETS.md finds where an element of a load or a store goes by dividing its index by\n"
               "the layout's spans, from the last dimension to the first. A span of 1 needs no division, and most\n"
               "layouts begin with some; an index of 0 needs none either. Counted, for those who time layouts, are\n"
               "the divisions that are left, one for each span above 1 while the index is not 0, of all elements\n"
               "inside their view's clip, with a byte or without:\n"
               "  accepted, divisions: 12\n",
    .perform = do_divisions,
};
