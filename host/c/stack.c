/*
 * How much stack each call takes: each runs on a stack of its own, filled with one byte before, and
 * what it wrote over is counted; first on a bank that is nearly empty, then on one that is full, whose
 * commits move. Fails where a call takes more than docs/USING.md says.
 */
#define _XOPEN_SOURCE 700

#include "board.h"

#include <ucontext.h>

#define MOST 19456u /* docs/USING.md, 'Memory' */
#define STACK 262144u
#define FILLED 0xA5

static uint8_t stack[STACK];
static uint8_t value[1024];
static uint32_t entries[FEQYONDIL_RUN_NUMBERS * FEQYONDIL_RUN_LOG_ENTRIES_MAX];
static uint8_t run_log[FEQYONDIL_RUN_LOG_MAX];
static uint32_t tables[FEQYONDIL_CRC32_TABLE_ENTRIES];
static const uint32_t rates[2][FEQYONDIL_RATE_NUMBERS] = {{FEQYONDIL_PLUS, 0, 0, 0, 1}, {FEQYONDIL_MINUS, 1, 0, 0, 0}};
static uint32_t rate[FEQYONDIL_RATE_NUMBERS];
static int64_t thirds[1];
static uint64_t numbers[8];
static uint32_t answer;
static ucontext_t origin, called;

#define KEY value, 4

static void crc32(void) { answer = feqyondil_crc32(flash, sizeof flash); }
static void crc32_tables(void) { feqyondil_crc32_tables(tables); }
static void crc32_with(void) { answer = feqyondil_crc32_with(tables, flash, sizeof flash); }
static void partition_parse(void) { answer = feqyondil_partition_parse(flash, sizeof flash, numbers); }
static void partition_serialize(void) {
    answer = feqyondil_partition_serialize(flash, sizeof flash, output, sizeof output, numbers);
}
static void bank_cause(void) { answer = feqyondil_bank_cause(flash, sizeof flash, numbers); }
static void open_store(void) { answer = feqyondil_open(flash, sizeof flash, STORE); }
static void insert(void) { answer = feqyondil_insert(STORE, KEY, value, sizeof value, FEQYONDIL_SYSTEM); }
static void barrel_insert(void) {
    answer = feqyondil_barrel_insert(STORE, KEY, value, FEQYONDIL_BARREL_VALUE_MAX, FEQYONDIL_SYSTEM);
}
static void remove_key(void) { answer = feqyondil_remove(STORE, KEY, FEQYONDIL_SYSTEM); }
static void lookup(void) { answer = feqyondil_lookup(STORE, KEY, FEQYONDIL_SYSTEM, numbers); }
static void fetch(void) { answer = (uint32_t)feqyondil_value(STORE, KEY, FEQYONDIL_SYSTEM, output, sizeof output); }
static void figures(void) { answer = feqyondil_figures(STORE, numbers); }
static void tally(void) { answer = feqyondil_tally(state, sizeof state, numbers); }
static void commit(void) { answer = feqyondil_commit(STORE, output, sizeof output, FEQYONDIL_CLOCK, numbers); }
static void careful_commit(void) {
    answer = feqyondil_careful_commit(STORE, output, sizeof output, FEQYONDIL_BARREL, numbers);
}
static void whole_image(void) { answer = feqyondil_whole_image(STORE, output, sizeof output, numbers); }
/* Of the bank that the commit before it wrote. */
static void same_settings(void) {
    answer = feqyondil_same_settings(output, FEQYONDIL_BANK_SIZE, output, FEQYONDIL_BANK_SIZE, numbers);
    check(numbers[0] == 1, "the same settings");
}
static void run_log_write(void) {
    answer = feqyondil_run_log_write(entries, sizeof entries / sizeof entries[0], run_log, sizeof run_log, numbers);
    check(numbers[0] == sizeof run_log - 2, "the log of the most entries");
}
/* Of the log that was written before. */
static void run_log_read(void) {
    answer = feqyondil_run_log_read(run_log, numbers[0], entries, sizeof entries / sizeof entries[0], numbers);
    check(numbers[0] == FEQYONDIL_RUN_LOG_ENTRIES_MAX, "the most entries");
}
static void rate_add(void) { answer = feqyondil_rate_add(rates[0], rates[1], rate); }
static void rate_subtract(void) { answer = feqyondil_rate_subtract(rates[0], rates[1], rate); }
static void rate_compare(void) { answer = feqyondil_rate_compare(rates[0], rates[1], numbers); }
static void rate_to_thirds(void) { answer = feqyondil_rate_to_thirds(rates[1], thirds); }
/* Of the thirds that were answered before. */
static void rate_from_thirds(void) {
    answer = feqyondil_rate_from_thirds(thirds[0], rate);
    check(memcmp(rate, rates[1], sizeof rate) == 0, "the rate of its thirds");
}

static const struct {
    const char *name;
    void (*call)(void);
} calls[] = {
    {"crc32_tables", crc32_tables},
    {"crc32", crc32},
    {"crc32_with", crc32_with},
    {"partition_parse", partition_parse},
    {"partition_serialize", partition_serialize},
    {"bank_cause", bank_cause},
    {"open", open_store},
    {"insert", insert},
    {"barrel_insert", barrel_insert},
    {"lookup", lookup},
    {"value", fetch},
    {"figures", figures},
    {"tally", tally},
    {"whole_image", whole_image},
    {"commit", commit},
    {"careful_commit", careful_commit},
    {"same_settings", same_settings},
    {"run_log_write", run_log_write},
    {"run_log_read", run_log_read},
    {"rate_add", rate_add},
    {"rate_subtract", rate_subtract},
    {"rate_compare", rate_compare},
    {"rate_to_thirds", rate_to_thirds},
    {"rate_from_thirds", rate_from_thirds},
    {"remove", remove_key},
};

/* Inserts until the bank has to move. */
static void fill(void) {
    for (int k = 0; k < 64; k++)
        insert();
}

/* The stack is used from its end downward. */
static size_t used_by(void (*call)(void)) {
    size_t left = 0;
    memset(stack, FILLED, sizeof stack);
    getcontext(&called);
    called.uc_stack.ss_sp = stack;
    called.uc_stack.ss_size = sizeof stack;
    called.uc_link = &origin;
    makecontext(&called, call, 0);
    swapcontext(&origin, &called);
    while (left < sizeof stack && stack[left] == FILLED)
        left++;
    return sizeof stack - left;
}

int main(void) {
    size_t most = 0;
    const char *name = "";
    format(FEQYONDIL_BANK_SIZE);
    for (int full = 0; full < 2; full++) {
        for (size_t i = 0; i < sizeof calls / sizeof calls[0]; i++) {
            size_t used = used_by(calls[i].call);
            if (used > most) {
                most = used;
                name = calls[i].name;
            }
            if (full && (calls[i].call == insert || calls[i].call == commit))
                fill();
        }
    }
    /* To the Empty bank by one commit, and back by the other, which asks for an erase. */
    check(answer == FEQYONDIL_OK && feqyondil_state_number(state, FEQYONDIL_STATE_ACTIVE) == 0 &&
              feqyondil_state_number(state, FEQYONDIL_STATE_BARREL_TALLY) == 1,
          "the full bank has moved twice");
    printf("stack: at most %zu bytes, by feqyondil_%s\n", most, name);
    check(most <= MOST, "more than docs/USING.md says");
    return 0;
}
