/* The part of roundtrip.c for the log of winding runs: both calls, and what the header says of them. */
#ifndef RUN_LOG_H
#define RUN_LOG_H

#include "board.h"
#include "log_run.h" /* of docs/USING.md, 'A log of winding runs' */

#define NUMBERS (FEQYONDIL_RUN_NUMBERS * FEQYONDIL_RUN_LOG_ENTRIES_MAX)
#define BEFORE 7u /* what outputs hold before a call */

static const uint32_t runs[] = {1440, 95, 12, 1440, 300, 40};
static const uint8_t runs_log[] = {2, 0xA0, 0x0B, 95, 12, 0xA0, 0x0B, 0xAC, 0x02, 40};
static const uint32_t zeros[NUMBERS + 1];

#define RUNS runs, sizeof runs / sizeof runs[0]

/* The outputs, with one more than a log takes. */
static uint32_t entries[NUMBERS + 1];
static uint8_t run_log[FEQYONDIL_RUN_LOG_MAX + 1];

/* What is in them from a place on is as before the call. */
static int numbers_stay(size_t from) {
    while (from <= NUMBERS && entries[from] == BEFORE)
        from++;
    return from > NUMBERS;
}

static int bytes_stay(size_t from) {
    while (from < sizeof run_log && run_log[from] == BEFORE)
        from++;
    return from == sizeof run_log;
}

/* Each call with so much output. */
static uint32_t read_log(const uint8_t *log, size_t log_len, size_t room, uint64_t count[1]) {
    for (size_t i = 0; i <= NUMBERS; i++)
        entries[i] = BEFORE;
    count[0] = BEFORE;
    return feqyondil_run_log_read(log, log_len, entries, room, count);
}

static uint32_t write_log(const uint32_t *numbers, size_t numbers_len, size_t room, uint64_t length[1]) {
    memset(run_log, BEFORE, sizeof run_log);
    length[0] = BEFORE;
    return feqyondil_run_log_write(numbers, numbers_len, run_log, room, length);
}

/* Each call is refused by this number, answers 0 and leaves its output. */
static int refuses_log(const uint8_t *log, size_t log_len, size_t room, uint32_t number) {
    uint64_t count[1];
    return read_log(log, log_len, room, count) == number && count[0] == 0 && numbers_stay(0);
}

static int refuses_runs(const uint32_t *numbers, size_t numbers_len, size_t room, uint32_t number) {
    uint64_t length[1];
    return write_log(numbers, numbers_len, room, length) == number && length[0] == 0 && bytes_stay(0);
}

/* Two runs are written and put into the store; what is looked up there reads back as the same. */
static void log_in_store(void) {
    static const uint8_t name[] = {'r', 'u', 'n', 's'};
    uint64_t length[1], count[1], place[3];
    check(write_log(RUNS, sizeof run_log, length) == FEQYONDIL_OK && length[0] == sizeof runs_log, "write a log");
    check(memcmp(run_log, runs_log, sizeof runs_log) == 0 && bytes_stay(sizeof runs_log), "what is written");
    check(feqyondil_insert(STORE, name, 4, run_log, length[0], FEQYONDIL_SYSTEM) == FEQYONDIL_OK, "insert a log");
    check(feqyondil_lookup(STORE, name, 4, FEQYONDIL_SYSTEM, place) == FEQYONDIL_OK, "look a log up");
    check(place[FEQYONDIL_FOUND_LENGTH] == length[0], "the value's length");
    check(read_log(work + place[FEQYONDIL_FOUND_PLACE], length[0], NUMBERS, count) == FEQYONDIL_OK, "read a log");
    check(count[0] == 2 && memcmp(entries, runs, sizeof runs) == 0 && numbers_stay(6), "what is read");
    check(entries[FEQYONDIL_RUN_NUMBERS + FEQYONDIL_RUN_START] == 1440 && entries[FEQYONDIL_RUN_SECONDS] == 95 &&
              entries[FEQYONDIL_RUN_TURNS] == 12,
          "the places of an entry");
    reopen();
}

/* The function of docs/USING.md adds two runs, none that starts before them, and one to a log that is full. */
static void logged_runs(void) {
    static const uint8_t name[] = {'r', 'u', 'n', 's'};
    static uint32_t large[3 * 272];
    uint64_t length[1], count[1];
    check(log_run(1440, 95, 12) == FEQYONDIL_OK && log_run(1440, 300, 40) == FEQYONDIL_OK, "log two runs");
    check(log_run(1439, 1, 1) == FEQYONDIL_LOG_ORDER, "17: a run before the last");
    length[0] = feqyondil_value(STORE, name, 4, FEQYONDIL_SYSTEM, run_log, sizeof run_log);
    check(length[0] == sizeof runs_log && memcmp(run_log, runs_log, sizeof runs_log) == 0, "what is logged");
    memset(large, 0xFF, sizeof large);
    large[1] = 1;
    check(write_log(large, 3 * 272, sizeof run_log, length) == FEQYONDIL_OK && length[0] == 4078, "a full log");
    check(feqyondil_insert(STORE, name, 4, run_log, length[0], FEQYONDIL_SYSTEM) == FEQYONDIL_OK, "insert a full log");
    check(log_run(UINT32_MAX, 1u << 28, UINT32_MAX) == FEQYONDIL_OK, "log one run more");
    check(log_run(UINT32_MAX, 7, 1u << 28) == FEQYONDIL_OK, "log one run more, without the oldest");
    length[0] = feqyondil_value(STORE, name, 4, FEQYONDIL_SYSTEM, run_log, sizeof run_log);
    check(read_log(run_log, length[0], NUMBERS, count) == FEQYONDIL_OK && count[0] == 273, "as many runs as before");
    check(entries[1] == UINT32_MAX && entries[3 * 272 + 1] == 7 && numbers_stay(3 * 273), "the second is the first now");
    reopen();
}

static void refused_reads(void) {
    static const uint8_t longer[] = {0x80, 0}, large[] = {0x80, 0x80, 0x80, 0x80, 0x10}, falls[] = {2, 7, 0, 0, 6};
    static const uint8_t none[FEQYONDIL_RUN_LOG_MAX + 1];
    check(refuses_log(runs_log, sizeof runs_log - 1, NUMBERS, FEQYONDIL_LOG_NUMBER), "16: cut off");
    check(refuses_log(longer, sizeof longer, NUMBERS, FEQYONDIL_LOG_NUMBER), "16: not in its shortest form");
    check(refuses_log(large, sizeof large, NUMBERS, FEQYONDIL_LOG_NUMBER), "16: 2^32");
    check(refuses_log(falls, sizeof falls, NUMBERS, FEQYONDIL_LOG_ORDER), "17: read");
    check(refuses_log(none, sizeof none, NUMBERS, FEQYONDIL_LOG_LENGTH), "18: a log over 4,096 bytes");
    check(refuses_log(none, 2, NUMBERS, FEQYONDIL_LOG_LENGTH), "18: bytes left over");
    check(refuses_log(runs_log, sizeof runs_log, 5, FEQYONDIL_LOG_LENGTH), "18: too few numbers of output");
}

static void refused_writes(void) {
    static const uint32_t falls[] = {7, 0, 0, 6, 0, 0};
    static uint32_t over[NUMBERS];
    memcpy(over, zeros, sizeof over);
    over[NUMBERS - 3] = over[NUMBERS - 2] = over[NUMBERS - 1] = 128;
    check(refuses_runs(falls, 6, sizeof run_log, FEQYONDIL_LOG_ORDER), "17: write");
    check(refuses_runs(falls, 5, sizeof run_log, FEQYONDIL_LOG_LENGTH), "18: no threes");
    check(refuses_runs(over, NUMBERS, sizeof run_log, FEQYONDIL_LOG_LENGTH), "18: entries over 4,096 bytes");
    check(refuses_runs(RUNS, sizeof runs_log - 1, FEQYONDIL_LOG_LENGTH), "18: too few bytes of output");
}

/* As many entries as a log has; and null pointers where there are none. */
static void most_and_none(void) {
    uint64_t answer[1];
    check(write_log(zeros, NUMBERS, sizeof run_log, answer) == FEQYONDIL_OK && answer[0] == 4094, "the most entries");
    check(read_log(run_log, 4094, NUMBERS, answer) == FEQYONDIL_OK, "read the most entries");
    check(answer[0] == FEQYONDIL_RUN_LOG_ENTRIES_MAX && memcmp(entries, zeros, 4 * NUMBERS) == 0, "they are the same");
    check(write_log(NULL, 0, 1, answer) == FEQYONDIL_OK && answer[0] == 1 && run_log[0] == 0, "null: write, entries");
    check(feqyondil_run_log_read(run_log, 1, NULL, 0, answer) == FEQYONDIL_OK && answer[0] == 0, "null: read, entries");
    check(feqyondil_run_log_write(RUNS, NULL, 0, answer) == FEQYONDIL_LOG_LENGTH, "null: write, log");
    check(feqyondil_run_log_write(NULL, 0, NULL, 0, answer) == FEQYONDIL_LOG_LENGTH, "null: write, both");
    check(refuses_log(NULL, 0, NUMBERS, FEQYONDIL_LOG_NUMBER), "null: read, log");
    check(feqyondil_run_log_read(NULL, 0, NULL, 0, answer) == FEQYONDIL_LOG_NUMBER, "null: read, both");
}

static void run_logs(void) {
    log_in_store();
    logged_runs();
    refused_reads();
    refused_writes();
    most_and_none();
}

#endif
