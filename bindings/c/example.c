/* Rolls up two states and prints the written one: the states of document 01's case B1. */
#include "filmoed.h"
#include <stdio.h>

static uint8_t registers[65536], out[65536];
static uint32_t sparse[16384], pending[16384], scratch[16384];

/* Two states of 23 bytes, one behind the other. */
static const uint8_t states[46] = {
    0x08, 0x70, 0x10, 0x02, 0x18, 0x02, 0x20, 0x08, 0x82, 0x07, 0x0c, 0x10, 0x02, 0x18, 0x0a, 0x20, 0x0f, 0x32, 0x04, 0x21, 0xe2, 0x80, 0x04,
    0x08, 0x70, 0x10, 0x02, 0x18, 0x02, 0x20, 0x08, 0x82, 0x07, 0x0c, 0x10, 0x02, 0x18, 0x0a, 0x20, 0x0f, 0x32, 0x04, 0x21, 0xe2, 0x80, 0x04,
};

int main(void) {
    uint64_t head[FILMOED_HEAD], len = 0;
    const uint64_t ends[2] = {23, 46};
    uint8_t answers[2];
    uint8_t answer = filmoed_fresh(head, FILMOED_HEAD);
    if (answer == 0)
        answer = filmoed_fold(head, FILMOED_HEAD, registers, 65536, sparse, 16384, pending, 16384, scratch, 16384, states, sizeof states, ends, 2, answers, 2);
    if (answer != 0) {
        fprintf(stderr, answer == FILMOED_BAD_ENDS ? "ends that do not fit: %d\n" : "refused with %d\n", answer);
        return 1;
    }
    for (int i = 0; i < 2; i++)
        printf("%d %d\n", i + 1, answers[i]);
    answer = filmoed_write(head, FILMOED_HEAD, registers, 65536, sparse, 16384, pending, 16384, scratch, 16384, out, sizeof out, &len, 1);
    if (answer != 0) {
        fprintf(stderr, "not written: %d\n", answer);
        return 1;
    }
    for (uint64_t i = 0; i < len; i++)
        printf("%02x", out[i]);
    printf("\n");
    return 0;
}
