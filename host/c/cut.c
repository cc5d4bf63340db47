/*
 * A store that goes on after a power cut, as docs/USING.md says and as it warns of: a commit of two
 * new values is cut off when the second one's record is whole, and another value is committed then.
 */
#include "board.h"

#define ALL sizeof output
#define RECORD 39u /* of a key and a value of one byte each */

/* The function of docs/USING.md, 'Power cuts'. */
#include "move_after_cut.h"

static void insert(const char *key) {
    const uint8_t *byte = (const uint8_t *)key;
    check(feqyondil_insert(STORE, byte, 1, byte, 1, FEQYONDIL_COMMON) == FEQYONDIL_OK, "insert");
}

static int is_found(const char *key) {
    uint64_t found[3];
    uint32_t number = feqyondil_lookup(STORE, (const uint8_t *)key, 1, FEQYONDIL_COMMON, found);
    check(number == FEQYONDIL_OK, "lookup");
    return found[FEQYONDIL_FOUND] == 1;
}

/* Commits downward, with power for so many bytes. Answers the write's offset. */
static uint64_t commit(size_t power) {
    uint64_t asked[4];
    uint8_t *bank;
    check(feqyondil_careful_commit(STORE, output, sizeof output, FEQYONDIL_CLOCK, asked) == FEQYONDIL_OK, "commit");
    check(asked[FEQYONDIL_ERASE] == 0, "no erase");
    bank = flash + asked[FEQYONDIL_WRITE_OFFSET];
    for (uint64_t i = asked[FEQYONDIL_WRITE_LENGTH]; i-- > 0 && power > 0;) {
        if (bank[i] != output[i]) {
            bank[i] &= output[i];
            power--;
        }
    }
    return asked[FEQYONDIL_WRITE_OFFSET];
}

/* Whether the second value, which was cut off, is back after the third one's commit. */
static int comes_back(int moves) {
    format(FEQYONDIL_BANK_SIZE);
    reopen();
    insert("a");
    insert("b");
    commit(RECORD);
    reopen();
    check(!is_found("a") && !is_found("b"), "after the cut");
    insert("c");
    if (moves)
        check(move_after_cut() == FEQYONDIL_OK, "a record to move");
    check(commit(ALL) == (moves ? FEQYONDIL_BANK_SIZE : 0), "the write's offset");
    reopen();
    check(is_found("c") && !is_found("a"), "after the next commit");
    return is_found("b");
}

int main(void) {
    check(comes_back(0), "the trap that docs/USING.md warns of is there");
    check(!comes_back(1), "with a move it is not");
    printf("cut: the commit after a power cut moves, and brings nothing back: right\n");
    return 0;
}
