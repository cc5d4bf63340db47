/* The part of roundtrip.c for daily rates in sixtieths: the five calls, and what the header says of them. */
#ifndef RATES_H
#define RATES_H

#include "board.h"
#include "mean_rate.h" /* of docs/USING.md, 'Rates in sixtieths' */

#define PLUS FEQYONDIL_PLUS
#define MINUS FEQYONDIL_MINUS
#define RATE(...) ((const uint32_t[FEQYONDIL_RATE_NUMBERS]){__VA_ARGS__})
#define ZERO RATE(PLUS, 0, 0, 0, 0)
#define THIRD RATE(PLUS, 0, 0, 0, 1)
#define HOUR RATE(PLUS, 1, 0, 0, 0)
#define LONGEST RATE(PLUS, 23, 59, 59, 59)
#define THIRDS_END ((int64_t)FEQYONDIL_RATE_THIRDS_END)

/* A call's number, and what it answers: a rate, an order or thirds. */
#define IS(answer) FEQYONDIL_OK, answer
#define REFUSED(zeros) FEQYONDIL_RATE_RANGE, zeros

typedef uint32_t rate_call(const uint32_t *, const uint32_t *, uint32_t *);

/* Copies of two rates, for a call to read. */
static uint32_t lent_a[FEQYONDIL_RATE_NUMBERS], lent_b[FEQYONDIL_RATE_NUMBERS];

static void lend(const uint32_t *a, const uint32_t *b) {
    memcpy(lent_a, a, sizeof lent_a);
    memcpy(lent_b, b, sizeof lent_b);
}

/* They stay. */
static int is_left(const uint32_t *a, const uint32_t *b) {
    return memcmp(lent_a, a, sizeof lent_a) == 0 && memcmp(lent_b, b, sizeof lent_b) == 0;
}

/* Whether a call answers so; it writes nothing behind its answer. */
static int answers(rate_call *call, const uint32_t *a, const uint32_t *b, uint32_t number, const uint32_t *rate) {
    uint32_t answer[] = {7, 7, 7, 7, 7, 7};
    lend(a, b);
    return call(lent_a, lent_b, answer) == number && memcmp(answer, rate, sizeof lent_a) == 0 && is_left(a, b) &&
           answer[FEQYONDIL_RATE_NUMBERS] == 7;
}

static int is_sum(const uint32_t *a, const uint32_t *b, uint32_t number, const uint32_t *sum) {
    return answers(feqyondil_rate_add, a, b, number, sum) && answers(feqyondil_rate_add, b, a, number, sum);
}

static int is_difference(const uint32_t *a, const uint32_t *b, uint32_t number, const uint32_t *difference) {
    return answers(feqyondil_rate_subtract, a, b, number, difference);
}

static int is_order(const uint32_t *a, const uint32_t *b, uint32_t number, uint64_t order) {
    uint64_t answer[] = {7, 7};
    lend(a, b);
    return feqyondil_rate_compare(lent_a, lent_b, answer) == number && answer[0] == order && is_left(a, b) &&
           answer[1] == 7;
}

static int is_thirds(const uint32_t *rate, uint32_t number, int64_t thirds) {
    int64_t answer[] = {7, 7};
    lend(rate, rate);
    return feqyondil_rate_to_thirds(lent_a, answer) == number && answer[0] == thirds && is_left(rate, rate) &&
           answer[1] == 7;
}

static int is_rate(int64_t thirds, uint32_t number, const uint32_t *rate) {
    uint32_t answer[] = {7, 7, 7, 7, 7, 7};
    return feqyondil_rate_from_thirds(thirds, answer) == number && memcmp(answer, rate, sizeof lent_a) == 0 &&
           answer[FEQYONDIL_RATE_NUMBERS] == 7;
}

/* Carries and borrows through all places, and signs. */
static void rate_sums(void) {
    uint32_t sum[FEQYONDIL_RATE_NUMBERS];
    check(is_sum(RATE(PLUS, 0, 59, 59, 59), THIRD, IS(HOUR)), "a carry through all places");
    check(is_difference(HOUR, THIRD, IS(RATE(PLUS, 0, 59, 59, 59))), "a borrow through all places");
    check(is_difference(THIRD, HOUR, IS(RATE(MINUS, 0, 59, 59, 59))), "a difference below zero");
    check(is_sum(RATE(MINUS, 0, 59, 59, 59), RATE(MINUS, 0, 0, 0, 1), IS(RATE(MINUS, 1, 0, 0, 0))), "both are minus");
    check(is_sum(RATE(PLUS, 1, 2, 3, 4), RATE(MINUS, 5, 6, 7, 8), IS(RATE(MINUS, 4, 4, 4, 4))), "the longer is minus");
    check(is_sum(RATE(MINUS, 1, 2, 3, 4), RATE(PLUS, 5, 6, 7, 8), IS(RATE(PLUS, 4, 4, 4, 4))), "the longer is plus");
    check(is_sum(HOUR, RATE(MINUS, 1, 0, 0, 0), IS(ZERO)), "a sum of zero is plus zero");
    check(is_difference(RATE(MINUS, 1, 0, 0, 0), RATE(MINUS, 1, 0, 0, 0), IS(ZERO)), "a difference of zero");
    check(feqyondil_rate_add(RATE(MINUS, 1, 2, 3, 4), ZERO, sum) == FEQYONDIL_OK, "a rate and zero");
    check(sum[FEQYONDIL_RATE_SIGN] == MINUS && sum[FEQYONDIL_RATE_HOURS] == 1 && sum[FEQYONDIL_RATE_MINUTES] == 2 &&
              sum[FEQYONDIL_RATE_SECONDS] == 3 && sum[FEQYONDIL_RATE_THIRDS] == 4,
          "the places of a rate");
}

/* The longest rates, and one third more. */
static void longest_rates(void) {
    check(is_sum(RATE(PLUS, 23, 59, 59, 58), THIRD, IS(LONGEST)), "the longest sum");
    check(is_difference(RATE(MINUS, 23, 59, 59, 58), THIRD, IS(RATE(MINUS, 23, 59, 59, 59))), "the longest with minus");
    check(is_sum(LONGEST, THIRD, REFUSED(ZERO)), "19: a sum of 24 hours");
    check(is_sum(RATE(MINUS, 12, 0, 0, 0), RATE(MINUS, 12, 0, 0, 0), REFUSED(ZERO)), "19: a sum of minus 24 hours");
    check(is_sum(LONGEST, LONGEST, REFUSED(ZERO)), "19: the longest sum of all");
    check(is_difference(RATE(MINUS, 23, 59, 59, 59), THIRD, REFUSED(ZERO)), "19: a difference of minus 24 hours");
    check(is_difference(LONGEST, RATE(MINUS, 0, 0, 0, 1), REFUSED(ZERO)), "19: a difference of 24 hours");
}

/* Of rising rates, each with each. */
static void rate_orders(void) {
    static const uint32_t rising[][FEQYONDIL_RATE_NUMBERS] = {
        {MINUS, 23, 59, 59, 59}, {MINUS, 1, 0, 0, 0}, {MINUS, 0, 59, 59, 59}, {MINUS, 0, 0, 0, 1}, {PLUS, 0, 0, 0, 0},
        {PLUS, 0, 0, 0, 1}, {PLUS, 0, 0, 1, 0}, {PLUS, 0, 1, 0, 0}, {PLUS, 1, 0, 0, 0}, {PLUS, 23, 59, 59, 59}};
    for (size_t i = 0; i < sizeof rising / sizeof rising[0]; i++) {
        check(is_order(rising[i], rising[i], IS(FEQYONDIL_RATE_EQUAL)), "a rate is equal to itself");
        for (size_t k = 0; k < i; k++) {
            check(is_order(rising[k], rising[i], IS(FEQYONDIL_RATE_LESS)), "a rate is less");
            check(is_order(rising[i], rising[k], IS(FEQYONDIL_RATE_GREATER)), "a rate is greater");
        }
    }
}

/* Both ways: each number of thirds has one rate. */
static void rate_thirds(void) {
    uint32_t rate[FEQYONDIL_RATE_NUMBERS];
    check(is_thirds(ZERO, IS(0)) && is_rate(0, IS(ZERO)), "no thirds");
    check(is_thirds(THIRD, IS(1)) && is_rate(-1, IS(RATE(MINUS, 0, 0, 0, 1))), "a third");
    check(is_thirds(RATE(PLUS, 0, 0, 1, 0), IS(60)), "a third is 1/60 second");
    check(is_thirds(RATE(MINUS, 1, 2, 3, 4), IS(-223384)) && is_rate(223384, IS(RATE(PLUS, 1, 2, 3, 4))), "places");
    check(is_thirds(LONGEST, IS(5183999)) && is_rate(-5183999, IS(RATE(MINUS, 23, 59, 59, 59))), "the most thirds");
    for (int64_t thirds = 1 - THIRDS_END; thirds < THIRDS_END; thirds += 61) {
        check(feqyondil_rate_from_thirds(thirds, rate) == FEQYONDIL_OK, "the rate of thirds");
        check(rate[FEQYONDIL_RATE_SIGN] == (thirds < 0 ? MINUS : PLUS) && is_thirds(rate, IS(thirds)), "its thirds");
    }
    check(is_rate(THIRDS_END, REFUSED(ZERO)) && is_rate(-THIRDS_END, REFUSED(ZERO)), "19: thirds of 24 hours");
    check(is_rate(1LL << 32, REFUSED(ZERO)) && is_rate(-(1LL << 32), REFUSED(ZERO)), "19: thirds over 32 bits");
    check(is_rate(INT64_MAX, REFUSED(ZERO)) && is_rate(INT64_MIN, REFUSED(ZERO)), "19: thirds of 64 bits");
}

/* Each call refuses it, on either side. */
static void no_rate(const uint32_t *none) {
    check(is_sum(none, THIRD, REFUSED(ZERO)), "19: add");
    check(is_difference(none, THIRD, REFUSED(ZERO)), "19: subtract, the first");
    check(is_difference(THIRD, none, REFUSED(ZERO)), "19: subtract, the second");
    check(is_difference(none, none, REFUSED(ZERO)), "19: subtract, both");
    check(is_order(none, THIRD, REFUSED(0)) && is_order(THIRD, none, REFUSED(0)), "19: compare");
    check(is_order(none, none, REFUSED(0)), "19: compare, both");
    check(is_thirds(none, REFUSED(0)), "19: to thirds");
}

/* A place of 60 and more, with either sign; of hours, 24 too. */
static void rate_places(void) {
    static const uint32_t over[] = {60, 256, 65536, 1u << 31, UINT32_MAX};
    no_rate(RATE(PLUS, 24, 0, 0, 0));
    for (size_t i = 0; i < 2 * (sizeof over / sizeof over[0]); i++) {
        uint32_t sign = i % 2 ? MINUS : PLUS, number = over[i / 2];
        no_rate(RATE(sign, number, 0, 0, 0));
        no_rate(RATE(sign, 0, number, 0, 0));
        no_rate(RATE(sign, 0, 0, number, 0));
        no_rate(RATE(sign, 0, 0, 0, number));
    }
}

/* Every number but 0 is minus, and there is no minus zero. */
static void rate_signs(void) {
    static const uint32_t signs[] = {1, 2, 256, 1u << 31, UINT32_MAX};
    for (size_t i = 0; i < sizeof signs / sizeof signs[0]; i++) {
        const uint32_t *rate = RATE(signs[i], 1, 2, 3, 4);
        check(is_sum(rate, ZERO, IS(RATE(MINUS, 1, 2, 3, 4))), "another number for minus: add");
        check(is_difference(ZERO, rate, IS(RATE(PLUS, 1, 2, 3, 4))), "another number for minus: subtract");
        check(is_order(rate, RATE(MINUS, 1, 2, 3, 4), IS(FEQYONDIL_RATE_EQUAL)), "another number for minus: compare");
        check(is_thirds(rate, IS(-223384)), "another number for minus: to thirds");
        no_rate(RATE(signs[i], 0, 0, 0, 0));
    }
}

/* The mean of some rates: their sum may be over, and a rate among them may be none. */
static void rate_means(void) {
    static const uint32_t week[][FEQYONDIL_RATE_NUMBERS] = {
        {PLUS, 23, 59, 59, 59}, {PLUS, 23, 59, 59, 57}, {MINUS, 0, 0, 0, 1}, {PLUS, 24, 0, 0, 0}};
    uint32_t mean[FEQYONDIL_RATE_NUMBERS];
    check(mean_rate(week, 2, mean) == FEQYONDIL_OK, "a mean");
    check(memcmp(mean, RATE(PLUS, 23, 59, 59, 58), sizeof mean) == 0, "the mean of two long rates");
    check(mean_rate(week + 2, 1, mean) == FEQYONDIL_OK, "a mean of one");
    check(memcmp(mean, week[2], sizeof mean) == 0, "it is the rate");
    check(mean_rate(week, 0, mean) == FEQYONDIL_OK && memcmp(mean, ZERO, sizeof mean) == 0, "a mean of none");
    check(mean_rate(week, 4, mean) == FEQYONDIL_RATE_RANGE, "19: a mean");
}

static void rates(void) {
    rate_sums();
    longest_rates();
    rate_orders();
    rate_thirds();
    rate_places();
    rate_signs();
    rate_means();
}

#endif
