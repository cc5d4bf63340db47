/* The part of roundtrip.c for the tallies of erase requests: both callers, the total, and where they stop. */
#ifndef TALLIES_H
#define TALLIES_H

#include "board.h"

#define STOP 4294967295u

typedef uint32_t commit_call(uint8_t *, size_t, uint8_t *, size_t, uint8_t *, size_t, uint32_t, uint64_t *);

/* What is told of the state, and what stands in it. */
static int is_tally(uint32_t clock, uint32_t barrel, uint32_t total) {
    uint64_t tally[3];
    check(feqyondil_tally(state, sizeof state, tally) == FEQYONDIL_OK, "tally");
    return tally[FEQYONDIL_TALLY_CLOCK] == clock && tally[FEQYONDIL_TALLY_BARREL] == barrel &&
           tally[FEQYONDIL_TALLY_TOTAL] == total &&
           feqyondil_state_number(state, FEQYONDIL_STATE_CLOCK_TALLY) == clock &&
           feqyondil_state_number(state, FEQYONDIL_STATE_BARREL_TALLY) == barrel;
}

static void put_tallies(uint32_t clock, uint32_t barrel) {
    for (size_t i = 0; i < 4; i++) {
        state[FEQYONDIL_STATE_CLOCK_TALLY + i] = (uint8_t)(clock >> 8 * i);
        state[FEQYONDIL_STATE_BARREL_TALLY + i] = (uint8_t)(barrel >> 8 * i);
    }
}

/* A commit for so many inserts of a value that the bank has room for once; whether it asks for an erase. */
static int wears(unsigned inserts, commit_call *call, uint32_t caller) {
    static const uint8_t value[60], name[] = {'w'};
    uint64_t asked[4];
    while (inserts-- > 0)
        check(feqyondil_insert(STORE, name, 1, value, sizeof value, FEQYONDIL_COMMON) == FEQYONDIL_OK, "insert");
    check(call(STORE, output, sizeof output, caller, asked) == FEQYONDIL_OK, "commit of either caller");
    return asked[FEQYONDIL_ERASE] == 1;
}

/* An erase request counts for its caller, of either commit; every number but 0 is the barrel's. */
static void callers(void) {
    check(is_tally(0, 0, 0), "the tallies of an opening");
    check(wears(2, feqyondil_commit, FEQYONDIL_CLOCK) && is_tally(1, 0, 1), "the clock's tally");
    check(wears(2, feqyondil_careful_commit, FEQYONDIL_BARREL) && is_tally(1, 1, 2), "the barrel's tally");
    check(wears(2, feqyondil_careful_commit, FEQYONDIL_CLOCK) && is_tally(2, 1, 3), "the clock's, again");
    check(wears(2, feqyondil_commit, UINT32_MAX) && is_tally(2, 2, 4), "another number for the barrel");
    check(!wears(0, feqyondil_commit, FEQYONDIL_BARREL) && is_tally(2, 2, 4), "a commit in place");
    reopen();
    check(is_tally(0, 0, 0), "the tallies of the next opening");
}

/* On a state that someone made: each tally stops by itself, and the total too. */
static void stops(void) {
    put_tallies(STOP - 1, STOP - 1);
    check(is_tally(STOP - 1, STOP - 1, STOP), "the total of two tallies");
    for (unsigned again = 0; again < 2; again++)
        check(wears(2, feqyondil_commit, FEQYONDIL_BARREL) && is_tally(STOP - 1, STOP, STOP), "the barrel's stop");
    for (unsigned again = 0; again < 2; again++)
        check(wears(2, feqyondil_careful_commit, FEQYONDIL_CLOCK) && is_tally(STOP, STOP, STOP), "the clock's stop");
    put_tallies(1, STOP - 2);
    check(is_tally(1, STOP - 2, STOP - 1), "a total below its stop");
    check(wears(2, feqyondil_commit, FEQYONDIL_CLOCK) && is_tally(2, STOP - 2, STOP), "a total at its stop");
    check(wears(2, feqyondil_commit, FEQYONDIL_CLOCK) && is_tally(3, STOP - 2, STOP), "a total past its stop");
    reopen();
}

/* Bytes that hold no state, and zeros then. */
static int has_no_tally(const uint8_t *bytes, size_t count) {
    uint64_t tally[3] = {7, 7, 7};
    uint32_t number = feqyondil_tally(bytes, count, tally);
    return number == FEQYONDIL_NOT_SOUND && (tally[0] | tally[1] | tally[2]) == 0;
}

static void tallies(void) {
    callers();
    stops();
    check(has_no_tally(state, sizeof state - 1), "6: a short state");
    check(has_no_tally(NULL, 0), "null: tally");
    state[sizeof state - FEQYONDIL_ENTRY_SIZE + FEQYONDIL_ENTRY_KIND] = FEQYONDIL_KIND_VALID + 1;
    check(has_no_tally(state, sizeof state), "6: no kind");
    reopen();
}

#endif
