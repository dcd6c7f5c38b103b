/* A sheet that is padded on both sides: a layout with Constant 9, size 4 from offset -2 on, through which
 * register 1 is loaded, and stored to 16. */
#ifndef PADDED_SHEET_H
#define PADDED_SHEET_H

#include "moonbleat.h"

static const uint8_t sheet[] = {
    0x01, 1,  0, 1,                                                    /* edition 1 */
    0x10, 16, 0, 1, 1, 9, 0, 0, 0, 1, 0, 4, 0, 1, 0, 0xFE, 0xFF, 8, 0, /* layout 0 */
    0x20, 8,  0, 0, 1, 8, 0, 0, 0, 0, 0,                               /* step 0: fill, 1 by 8 of u8 */
    0x21, 8,  0, 1, 0, 0, MOONBLEAT_NONE, 0, 0, 0, 0,                  /* step 1: load */
    0x22, 7,  0, 1, 0, MOONBLEAT_NONE, 16, 0, 0, 0,                    /* step 2: store */
};
enum { MEMORY = 20 };

#endif
