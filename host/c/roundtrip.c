/*
 * The header and the library from C: a store is opened, edited and committed until its bank moves,
 * the flash is written as the commits ask, and what is opened again has the values. What the header
 * says of null pointers, of the state's numbers, of the tallies of both callers, of what records come to, of a
 * store after a move and after 12, of the barrels' insert, of the settings of two banks, of why reading a bank
 * stopped, of the log of winding runs, and of daily rates is tried too.
 */
#include "rates.h"
#include "run_log.h"
#include "tallies.h"

#define FLASH (sizeof flash)
#define SIZE 200u
#define TURNS 9u
#define RECORD 42u /* of the key and a value of one byte */

static uint64_t requests[4], found[3], figures[3], length[1], fields[8], same[1], spot[2];

static const uint8_t key[] = {'r', 'a', 't', 'e'};
static const uint8_t long_value[FEQYONDIL_BARREL_VALUE_MAX + 1];

#define KEY key, sizeof key

static uint32_t number_at(size_t offset) { return feqyondil_state_number(state, offset); }

static uint32_t entry(uint32_t bank, size_t place) {
    return number_at(FEQYONDIL_STATE_ENTRIES + FEQYONDIL_ENTRY_SIZE * bank + place);
}

static void insert(uint8_t value) {
    check(feqyondil_insert(STORE, KEY, &value, 1, FEQYONDIL_SYSTEM) == FEQYONDIL_OK, "insert");
}

/* The erase and the write of a commit, as flash does them; whether there was an erase. */
static int commit(void) {
    uint64_t at, count;
    check(feqyondil_careful_commit(STORE, output, sizeof output, FEQYONDIL_CLOCK, requests) == FEQYONDIL_OK, "commit");
    at = requests[FEQYONDIL_WRITE_OFFSET];
    count = requests[FEQYONDIL_WRITE_LENGTH];
    check(at + count <= FLASH && count == SIZE, "the write's place");
    if (requests[FEQYONDIL_ERASE] == 1) {
        check(requests[FEQYONDIL_ERASE_OFFSET] + FEQYONDIL_BANK_SIZE <= FLASH, "the erase's place");
        memset(flash + requests[FEQYONDIL_ERASE_OFFSET], 0xFF, FEQYONDIL_BANK_SIZE);
    }
    for (uint64_t i = 0; i < count; i++)
        flash[at + i] &= output[i];
    return requests[FEQYONDIL_ERASE] == 1;
}

static void find(uint8_t count) {
    uint8_t value[2] = {0, 7};
    check(feqyondil_lookup(STORE, KEY, FEQYONDIL_SYSTEM, found) == FEQYONDIL_OK, "lookup");
    check(found[FEQYONDIL_FOUND] == 1 && found[FEQYONDIL_FOUND_LENGTH] == 1, "what is found");
    check(work[found[FEQYONDIL_FOUND_PLACE]] == count, "the value's place");
    check(feqyondil_value(STORE, KEY, FEQYONDIL_SYSTEM, value, sizeof value) == 1, "value's length");
    check(value[0] == count && value[1] == 7, "value");
}

/* Of the active bank: one live record, and those before it dead. */
static void sums(void) {
    uint32_t total = entry(number_at(FEQYONDIL_STATE_ACTIVE), FEQYONDIL_ENTRY_TOTAL);
    check(feqyondil_figures(STORE, figures) == FEQYONDIL_OK, "figures");
    check(figures[FEQYONDIL_FIGURES_SYSTEM] == RECORD && figures[FEQYONDIL_FIGURES_COMMON] == 0, "both sums");
    check(24 + RECORD * figures[FEQYONDIL_FIGURES_COUNT] == total, "the number of records");
}

/* The whole image right after a move, and when the store was opened again. */
static void moved(uint32_t from) {
    check(entry(from, FEQYONDIL_ENTRY_TOTAL) > SIZE, "the bank that was left");
    check(feqyondil_whole_image(STORE, output, FLASH, length) == FEQYONDIL_BANK_OVER, "13 after a move");
    reopen();
    check(feqyondil_whole_image(STORE, output, FLASH - 1, length) == FEQYONDIL_OUTPUT_SHORT, "a short output");
    check(feqyondil_whole_image(STORE, output, FLASH, length) == FEQYONDIL_OK, "whole image");
}

/* Commits until a bank was erased; answers how many. */
static unsigned turns(void) {
    unsigned erases = 0;
    for (uint8_t count = 1; count <= TURNS; count++) {
        uint32_t before, active;
        reopen();
        before = number_at(FEQYONDIL_STATE_ACTIVE);
        insert(count);
        erases += (unsigned)commit();
        active = number_at(FEQYONDIL_STATE_ACTIVE);
        check(number_at(FEQYONDIL_STATE_CLOCK_TALLY) == requests[FEQYONDIL_ERASE], "the tally of a turn");
        find(count);
        sums();
        if (active != before)
            moved(before);
        reopen();
        find(count);
        check(number_at(FEQYONDIL_STATE_BANKS) == BANKS && number_at(FEQYONDIL_STATE_ACTIVE) == active, "active");
        check(entry(active, FEQYONDIL_ENTRY_KIND) == FEQYONDIL_KIND_VALID, "kind");
        check(entry(active, FEQYONDIL_ENTRY_USABLE) == SIZE, "usable");
    }
    return erases;
}

static void insert_too_much(void) {
    check(feqyondil_insert(STORE, KEY, long_value, SIZE, FEQYONDIL_COMMON) == FEQYONDIL_OK, "a long insert");
}

/* After 12 of the older commit the state has moved, and its caller's tally has counted; the flash opens as before. */
static void over(void) {
    uint32_t active = number_at(FEQYONDIL_STATE_ACTIVE);
    insert_too_much();
    check(feqyondil_commit(STORE, output, sizeof output, FEQYONDIL_BARREL, requests) == FEQYONDIL_MOVED_OVER, "12");
    check(number_at(FEQYONDIL_STATE_ACTIVE) != active, "12 moves");
    check(requests[FEQYONDIL_ERASE] == 1 && is_tally(0, 1, 1), "12 counts for its caller");
    reopen();
    check(number_at(FEQYONDIL_STATE_ACTIVE) == active, "the flash after 12");
    find(TURNS);
}

static uint8_t old_state[sizeof state], old_work[sizeof work], old_output[sizeof output];

static void keep(void) {
    memcpy(old_state, state, sizeof state);
    memcpy(old_work, work, sizeof work);
    memcpy(old_output, output, sizeof output);
}

/* State, work area and output are as they were kept. */
static int is_kept(void) {
    return memcmp(old_state, state, sizeof state) == 0 && memcmp(old_work, work, sizeof work) == 0 &&
           memcmp(old_output, output, sizeof output) == 0;
}

/* 12 of the careful commit asks for nothing and changes nothing; it is accepted when the long value is removed. */
static void over_carefully(void) {
    static const uint64_t nothing[4];
    insert_too_much();
    keep();
    for (int again = 0; again < 2; again++) {
        memset(requests, 7, sizeof requests);
        check(feqyondil_careful_commit(STORE, output, sizeof output, FEQYONDIL_CLOCK, requests) == FEQYONDIL_MOVED_OVER,
              "careful 12");
        check(memcmp(requests, nothing, sizeof requests) == 0, "careful 12 asks for something");
        check(is_kept(), "the store and the output after a careful 12");
    }
    check(feqyondil_remove(STORE, KEY, FEQYONDIL_COMMON) == FEQYONDIL_OK, "remove");
    check(commit() == 1 && is_tally(1, 0, 1), "the move after a careful 12");
    reopen();
    find(TURNS);
}

typedef uint32_t insert_call(uint8_t *, size_t, uint8_t *, size_t, const uint8_t *, size_t, const uint8_t *, size_t,
                             uint32_t);

/* The length of the value that an insert has put there; nothing else is live of its type. */
static size_t inserted(insert_call *call, size_t count) {
    check(call(STORE, KEY, long_value, count, FEQYONDIL_COMMON) == FEQYONDIL_OK, "an insert of either manner");
    check(feqyondil_figures(STORE, figures) == FEQYONDIL_OK, "figures");
    check(figures[FEQYONDIL_FIGURES_COMMON] == RECORD - 1 + count, "the sum after an insert of either manner");
    return feqyondil_value(STORE, KEY, FEQYONDIL_COMMON, NULL, 0);
}

/* A barrel's value has 512 bytes at most, the clock's may be longer; each takes the place of the other's. */
static void barrels(void) {
    check(inserted(feqyondil_barrel_insert, 512) == 512, "a barrel value of 512 bytes");
    keep();
    check(feqyondil_barrel_insert(STORE, KEY, long_value, 513, FEQYONDIL_COMMON) == FEQYONDIL_VALUE_LONG, "15");
    check(is_kept(), "the store after 15");
    check(inserted(feqyondil_insert, 513) == 513, "the clock's value in the place of the barrels'");
    check(inserted(feqyondil_barrel_insert, 511) == 511, "the barrels' value in the place of the clock's");
    check(feqyondil_remove(STORE, KEY, FEQYONDIL_COMMON) == FEQYONDIL_OK, "the remove of a barrel's value");
    check(feqyondil_lookup(STORE, KEY, FEQYONDIL_COMMON, found) == FEQYONDIL_OK, "lookup");
    check(found[FEQYONDIL_FOUND] == 0, "a barrel's value that was removed");
    reopen();
}

#define ONE flash, FEQYONDIL_BANK_SIZE
#define OTHER output, FEQYONDIL_BANK_SIZE

/* A reserved byte has no say in the settings of a bank, the generation has; a bank has its length. */
static void settings(void) {
    memcpy(output, ONE);
    output[15] = 255;
    check(feqyondil_same_settings(ONE, OTHER, same) == FEQYONDIL_OK && same[0] == 1, "the same settings");
    output[8] ^= 1;
    check(feqyondil_same_settings(ONE, OTHER, same) == FEQYONDIL_OK && same[0] == 0, "other settings");
    same[0] = 7;
    check(feqyondil_same_settings(ONE, output, FEQYONDIL_BANK_SIZE + 1, same) == FEQYONDIL_BANK_LENGTH, "14");
    check(same[0] == 0, "the answer with 14");
}

/* Of the bank in output, and the spot that goes with it. */
static int is_cause(uint32_t cause, uint64_t place, uint64_t index) {
    uint32_t answer = feqyondil_bank_cause(OTHER, spot);
    return answer == cause && spot[FEQYONDIL_SPOT_PLACE] == place && spot[FEQYONDIL_SPOT_INDEX] == index;
}

/* A wrong CRC of the second record is named, and then what is met before it. */
static void causes(void) {
    memcpy(output, flash + FEQYONDIL_BANK_SIZE, FEQYONDIL_BANK_SIZE);
    check(is_cause(FEQYONDIL_CAUSE_END, 0, 0), "end");
    output[24 + RECORD + 32] ^= 1;
    check(is_cause(FEQYONDIL_CAUSE_CRC, 24 + RECORD + 32, 1), "crc");
    output[24 + 8] = 0;
    check(is_cause(FEQYONDIL_CAUSE_NAME, 24 + 8, 0), "name");
    output[14] = 2;
    check(is_cause(FEQYONDIL_CAUSE_VERSION, 14, 0), "version");
}

#define NONE NULL, 0
#define STATE state, sizeof state
#define WORK work, sizeof work
#define COMMON FEQYONDIL_COMMON

/* Of the calls on banks, each buffer in turn with a null pointer and length 0. */
static void nulls_of_banks(void) {
    static uint32_t tables[FEQYONDIL_CRC32_TABLE_ENTRIES];
    feqyondil_crc32_tables(tables);
    check(feqyondil_crc32(NONE) == 0, "null: checksum");
    check(feqyondil_crc32_with(tables, NONE) == 0, "null: checksum with tables");
    check(feqyondil_partition_parse(NONE, fields) == FEQYONDIL_SLOT_SHORT, "null: parse");
    check(feqyondil_partition_serialize(NONE, output, FLASH, fields) == FEQYONDIL_SLOT_SHORT, "null: serialize");
    check(feqyondil_partition_serialize(flash, FLASH, NONE, fields) == FEQYONDIL_SLOT_SHORT, "null: part");
    check(feqyondil_bank_cause(NONE, spot) == FEQYONDIL_CAUSE_SHORT, "null: cause");
    check(feqyondil_same_settings(NONE, OTHER, same) == FEQYONDIL_BANK_LENGTH, "null: settings, one");
    check(feqyondil_same_settings(ONE, NONE, same) == FEQYONDIL_BANK_LENGTH, "null: settings, other");
    check(feqyondil_same_settings(NONE, NONE, same) == FEQYONDIL_BANK_LENGTH, "null: settings");
}

/* Of either insert; an empty key and an empty value are as good as others. */
static void nulls_of_insert(insert_call *call) {
    check(call(NONE, WORK, KEY, KEY, COMMON) == FEQYONDIL_NOT_SOUND, "null: insert, state");
    check(call(STATE, NONE, KEY, KEY, COMMON) == FEQYONDIL_NOT_SOUND, "null: insert, work");
    check(call(STORE, NONE, KEY, COMMON) == FEQYONDIL_OK, "null: insert, key");
    check(feqyondil_value(STORE, NONE, COMMON, output, FLASH) == sizeof key, "null: value, key");
    check(call(STORE, NONE, NONE, COMMON) == FEQYONDIL_OK, "null: insert, key and value");
}

/* Of the edits, the lookups and the figures. */
static void nulls_of_edits(void) {
    nulls_of_insert(feqyondil_insert);
    nulls_of_insert(feqyondil_barrel_insert);
    check(feqyondil_lookup(NONE, WORK, KEY, COMMON, found) == FEQYONDIL_NOT_SOUND, "null: lookup, state");
    check(feqyondil_lookup(STATE, NONE, KEY, COMMON, found) == FEQYONDIL_NOT_SOUND, "null: lookup, work");
    check(feqyondil_lookup(STORE, NONE, COMMON, found) == FEQYONDIL_OK, "null: lookup, key");
    check(found[FEQYONDIL_FOUND] == 1 && found[FEQYONDIL_FOUND_LENGTH] == 0, "the empty value");
    check(feqyondil_value(NONE, WORK, KEY, FEQYONDIL_SYSTEM, output, FLASH) == 0, "null: value, state");
    check(feqyondil_value(STATE, NONE, KEY, FEQYONDIL_SYSTEM, output, FLASH) == 0, "null: value, work");
    check(feqyondil_value(STORE, KEY, FEQYONDIL_SYSTEM, NONE) == 1, "null: value, out");
    check(feqyondil_figures(NONE, WORK, figures) == FEQYONDIL_NOT_SOUND, "null: figures, state");
    check(feqyondil_figures(STATE, NONE, figures) == FEQYONDIL_NOT_SOUND, "null: figures, work");
    check(feqyondil_remove(NONE, WORK, KEY, COMMON) == FEQYONDIL_NOT_SOUND, "null: remove, state");
    check(feqyondil_remove(STATE, NONE, KEY, COMMON) == FEQYONDIL_NOT_SOUND, "null: remove, work");
    check(feqyondil_remove(STORE, NONE, COMMON) == FEQYONDIL_OK, "null: remove, key");
}

static void nulls_of_commit(commit_call *call, uint32_t caller) {
    check(call(NONE, WORK, output, FLASH, caller, requests) == FEQYONDIL_NOT_SOUND, "null: commit, state");
    check(call(STATE, NONE, output, FLASH, caller, requests) == FEQYONDIL_NOT_SOUND, "null: commit, work");
    check(call(STORE, NONE, caller, requests) == FEQYONDIL_OUTPUT_SHORT, "null: commit, output");
}

/* Of what reads and writes flash. */
static void nulls_of_flash(void) {
    nulls_of_commit(feqyondil_commit, FEQYONDIL_CLOCK);
    nulls_of_commit(feqyondil_careful_commit, FEQYONDIL_BARREL);
    check(feqyondil_whole_image(NONE, WORK, output, FLASH, length) == FEQYONDIL_NOT_SOUND, "null: image, state");
    check(feqyondil_whole_image(STATE, NONE, output, FLASH, length) == FEQYONDIL_NOT_SOUND, "null: image, work");
    check(feqyondil_whole_image(STORE, NONE, length) == FEQYONDIL_OUTPUT_SHORT, "null: image, output");
    check(feqyondil_open(flash, FLASH, NONE, WORK) == FEQYONDIL_NOT_SOUND, "null: opening, state");
    check(feqyondil_open(flash, FLASH, STATE, NONE) == FEQYONDIL_WORK_SHORT, "null: opening, work");
    check(feqyondil_open(NONE, STORE) == FEQYONDIL_IMAGE_SHORT, "null: opening, image");
}

int main(void) {
    unsigned erases;
    format(SIZE);
    erases = turns();
    check(erases == 1, "erases");
    settings();
    causes();
    over();
    over_carefully();
    barrels();
    tallies();
    run_logs();
    rates();
    nulls_of_banks();
    nulls_of_edits();
    nulls_of_flash();
    printf("roundtrip: %u commits, %u erased a bank, each reopened: right\n", TURNS, erases);
    return 0;
}
