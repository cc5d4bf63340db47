/* What the programs here share: a flash of two banks in memory, and a store opened from it. */
#ifndef BOARD_H
#define BOARD_H

#include "feqyondil.h"

#include <stdio.h>
#include <stdlib.h>
#include <string.h>

#define BANKS 2u

static uint8_t flash[BANKS * FEQYONDIL_BANK_SIZE];
static uint8_t work[BANKS * FEQYONDIL_PART_SIZE];
static uint8_t state[FEQYONDIL_STATE_SIZE];
static uint8_t output[sizeof flash];

#define STORE state, sizeof state, work, sizeof work

static inline void check(int right, const char *what) {
    if (!right) {
        fprintf(stderr, "WRONG: %s\n", what);
        exit(1);
    }
}

/* A first bank of this size without limits and without a record, then an Empty one. */
static inline void format(uint32_t size) {
    const uint8_t header[24] = {'3', 'V', 'V', 'N', (uint8_t)size, (uint8_t)(size >> 8), (uint8_t)(size >> 16), 0,
                                1, 0, 0, 0, 0, 0, 1, 0, 255, 255, 255, 255, 255, 255, 255, 255};
    memset(flash, 0xFF, sizeof flash);
    memcpy(flash, header, sizeof header);
}

static inline void reopen(void) { check(feqyondil_open(flash, sizeof flash, STORE) == FEQYONDIL_OK, "opening"); }

#endif
