/* Carries out a sheet on a memory: 8 elements from a tensor of 4, mirrored at both ends, and stored back, where those
 * outside are discarded. Which elements the store touched, the sheet's masks say. */
#include <stdio.h>

#include "moonbleat.h"

static const uint8_t sheet[] = {
    0x01, 1,  0, 1,                                                    /* edition 1 */
    0x10, 16, 0, 1, 4, 0, 0, 0, 0, 1, 0, 4, 0, 1, 0, 0xFE, 0xFF, 8, 0, /* layout 0, MirrorRepeat */
    0x20, 8,  0, 0, 1, 8, 0, 0, 0, 0, 0,                               /* step 0: fill register 0, 1 by 8 */
    0x21, 8,  0, 1, 0, 0, 255, 0, 0, 0, 0,                             /* step 1: load register 1 */
    0x22, 7,  0, 1, 0, 255, 0, 0, 0, 0,                                /* step 2: store register 1 */
};
enum { STORE = 2 };

static int refuse(const uint32_t answer[4])
{
    fprintf(stderr, "refusal %u at %u %u\n", answer[0], answer[1], answer[2]);
    return 1;
}

int main(void)
{
    static int32_t tape[MOONBLEAT_TAPE_NUMBERS];
    uint8_t memory[] = {10, 11, 12, 13}, types[16] = {0}, masks[MOONBLEAT_MASKS] = {0};
    uint32_t elements[1024] = {0}, records[1] = {0}, answer[4] = {0};

    if (moonbleat_carry_out(sheet, sizeof sheet, memory, sizeof memory, types, elements, answer) != 0) {
        return refuse(answer);
    }
    int count = types[4 + 1] * types[4 + 2];
    for (int i = 0; i < count; i++) {
        printf(" %u", elements[256 + i]);
    }
    if (moonbleat_translate(sheet, sizeof sheet, sizeof memory, tape, MOONBLEAT_TAPE_NUMBERS, masks, sizeof masks,
                            records, answer) != 0) {
        return refuse(answer);
    }
    printf("\n%u elements had a byte; stored:", answer[3]);
    for (int i = 0; i < count; i++) {
        if (moonbleat_touched(masks, sizeof masks, STORE, (uint32_t)i) == 1) {
            printf(" %d", i);
        }
    }
    printf("\n");
    return 0;
}
