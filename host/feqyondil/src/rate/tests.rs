//! Worked cases, each place at its limits, each refusal, and answers that are not promised.

use std::vec;
use std::vec::Vec;

use super::*;
use Ordering::{Equal, Greater, Less};

const ZERO: Rate = plus([0; 4]);
const THIRD: Rate = plus([0, 0, 0, 1]);
const HOUR: Rate = plus([1, 0, 0, 0]);
const LONGEST: Rate = plus([23, 59, 59, 59]);

const fn plus(places: [u32; 4]) -> Rate {
    Rate { minus: false, places }
}

const fn minus(places: [u32; 4]) -> Rate {
    Rate { minus: true, places }
}

fn negated(rate: Rate) -> Rate {
    Rate { minus: !rate.minus && rate != ZERO, ..rate }
}

/// The sum, either way round and with both signs; less the second rate it is the first.
fn adds(a: Rate, b: Rate, sum: Rate) {
    for sides in [[a, b, sum], [b, a, sum], [a, b, sum].map(negated), [b, a, sum].map(negated)] {
        let [a, b, sum] = sides;
        assert_eq!(rate_add(a, b), Ok(sum), "{a:?} {b:?}");
        assert_eq!(rate_subtract(sum, b), Ok(a), "{sum:?} {b:?}");
        assert_eq!(rate_subtract(a, negated(b)), Ok(sum), "{a:?} {b:?}");
    }
}

/// No rate: each call refuses it, on either side.
fn none(rate: Rate) {
    for [a, b] in [[rate, THIRD], [THIRD, rate], [rate, rate]] {
        assert_eq!(rate_add(a, b), Err(Refusal::RateRange), "{rate:?}");
        assert_eq!(rate_subtract(a, b), Err(Refusal::RateRange), "{rate:?}");
        assert_eq!(rate_compare(a, b), Err(Refusal::RateRange), "{rate:?}");
    }
    assert_eq!(rate_to_thirds(rate), Err(Refusal::RateRange), "{rate:?}");
}

#[test]
fn carries_and_borrows_go_through_all_places() {
    adds(plus([0, 59, 59, 59]), THIRD, HOUR);
    adds(plus([1, 59, 59, 59]), plus([1, 59, 59, 59]), plus([3, 59, 59, 58]));
    assert_eq!(rate_subtract(HOUR, THIRD), Ok(plus([0, 59, 59, 59])));
    assert_eq!(rate_subtract(THIRD, HOUR), Ok(minus([0, 59, 59, 59])));
    assert_eq!(rate_add(negated(HOUR), THIRD), Ok(minus([0, 59, 59, 59])));
    // From and to each place alone.
    adds(plus([0, 0, 0, 59]), THIRD, plus([0, 0, 1, 0]));
    adds(plus([0, 0, 59, 0]), plus([0, 0, 1, 0]), plus([0, 1, 0, 0]));
    adds(plus([0, 59, 0, 0]), plus([0, 1, 0, 0]), HOUR);
}

#[test]
fn a_sum_has_the_sign_of_the_longer() {
    adds(plus([1, 2, 3, 4]), plus([5, 6, 7, 8]), plus([6, 8, 10, 12]));
    adds(plus([1, 2, 3, 4]), minus([5, 6, 7, 8]), minus([4, 4, 4, 4]));
    adds(minus([1, 2, 3, 4]), plus([5, 6, 7, 8]), plus([4, 4, 4, 4]));
    // Longer by hours, and shorter in all other places.
    adds(plus([2, 0, 0, 0]), minus([1, 59, 59, 59]), THIRD);
    adds(plus([1, 59, 59, 59]), minus([2, 0, 0, 0]), negated(THIRD));
}

#[test]
fn minus_zero_is_no_rate() {
    none(minus([0; 4]));
    adds(ZERO, ZERO, ZERO);
    for rate in [THIRD, HOUR, LONGEST] {
        adds(rate, negated(rate), ZERO);
        adds(rate, ZERO, rate);
    }
}

#[test]
fn each_place_has_its_limit() {
    for (place, most) in [23, 59, 59, 59].into_iter().enumerate() {
        for mut rate in [plus([0; 4]), minus([0; 4])] {
            rate.places[place] = most;
            adds(rate, ZERO, rate);
            for over in [most + 1, 1 << 8, 1 << 16, 1 << 31, u32::MAX] {
                rate.places[place] = over;
                none(rate);
            }
        }
    }
}

#[test]
fn a_sum_is_below_24_hours() {
    let refused = Err(Refusal::RateRange);
    adds(plus([23, 59, 59, 58]), THIRD, LONGEST);
    adds(plus([12, 0, 0, 0]), plus([11, 59, 59, 59]), LONGEST);
    for (a, b) in [
        (LONGEST, THIRD),
        (LONGEST, LONGEST),
        (plus([12, 0, 0, 0]), plus([12, 0, 0, 0])),
        (plus([23, 0, 0, 0]), HOUR),
    ] {
        assert_eq!((rate_add(a, b), rate_add(b, a)), (refused, refused), "{a:?} {b:?}");
        assert_eq!(rate_add(negated(a), negated(b)), refused, "{a:?} {b:?}");
        assert_eq!(rate_subtract(a, negated(b)), refused, "{a:?} {b:?}");
        assert_eq!(rate_subtract(negated(a), b), refused, "{a:?} {b:?}");
    }
}

#[test]
fn of_two_with_minus_the_longer_is_less() {
    assert_eq!(rate_compare(minus([1, 0, 0, 0]), minus([0, 59, 59, 59])), Ok(Less));
    let mut rising: Vec<Rate> = vec![THIRD, plus([0, 0, 1, 0]), plus([0, 1, 0, 0])];
    rising.extend([plus([0, 59, 59, 59]), HOUR, plus([1, 0, 0, 1]), LONGEST]);
    let below: Vec<Rate> = rising.iter().rev().map(|&rate| negated(rate)).collect();
    let all = [below, vec![ZERO], rising].concat();
    for (i, &a) in all.iter().enumerate() {
        assert_eq!(rate_compare(a, a), Ok(Equal));
        for &b in &all[i + 1..] {
            assert_eq!((rate_compare(a, b), rate_compare(b, a)), (Ok(Less), Ok(Greater)));
        }
    }
}

#[test]
fn thirds_go_both_ways() {
    for (thirds, rate) in [
        (0, ZERO),
        (1, THIRD),
        (59, plus([0, 0, 0, 59])),
        (60, plus([0, 0, 1, 0])),
        (3_600, plus([0, 1, 0, 0])),
        (216_000, HOUR),
        (216_000 + 2 * 3_600 + 3 * 60 + 4, plus([1, 2, 3, 4])),
        (RATE_THIRDS_END - 1, LONGEST),
    ] {
        for (thirds, rate) in [(thirds, rate), (-thirds, negated(rate))] {
            assert_eq!((rate_to_thirds(rate), rate_from_thirds(thirds)), (Ok(thirds), Ok(rate)));
        }
    }
    let end = RATE_THIRDS_END;
    for thirds in [end, -end, end + 1, -end - 1, 1 << 32, -1 << 32, i64::MIN, i64::MAX] {
        assert_eq!(rate_from_thirds(thirds), Err(Refusal::RateRange), "{thirds}");
    }
}

/// Numbers of the signs that are taken as minus.
const SIGNS: [u32; 5] = [1, 2, 1 << 8, 1 << 31, u32::MAX];

#[test]
fn every_sign_but_0_is_minus() {
    for numbers in SIGNS.map(|sign| [sign, 1, 2, 3, 4]) {
        let (mut rate, mut order, mut thirds) = ([7; RATE_NUMBERS], [7], [7]);
        assert_eq!((lent::rate::add(&numbers, &[0; 5], &mut rate), rate), (0, [1, 1, 2, 3, 4]));
        let answer = (lent::rate::subtract(&[0; 5], &numbers, &mut rate), rate);
        assert_eq!(answer, (0, [0, 1, 2, 3, 4]));
        assert_eq!((lent::rate::compare(&rate, &numbers, &mut order), order), (0, [3]));
        assert_eq!((lent::rate::to_thirds(&numbers, &mut thirds), thirds), (0, [-223_384]));
    }
}

#[test]
fn zeros_go_with_a_refusal() {
    let third = THIRD.numbers();
    for zero in SIGNS.map(|sign| [sign, 0, 0, 0, 0]) {
        let ([mut sum, mut rest, mut rate], mut order, mut thirds) = ([[7; 5]; 3], [7], [7]);
        assert_eq!((lent::rate::add(&zero, &third, &mut sum), sum), (19, [0; 5]));
        assert_eq!((lent::rate::subtract(&third, &zero, &mut rest), rest), (19, [0; 5]));
        assert_eq!((lent::rate::compare(&zero, &third, &mut order), order), (19, [0]));
        assert_eq!((lent::rate::to_thirds(&zero, &mut thirds), thirds), (19, [0]));
        assert_eq!((lent::rate::from_thirds(i64::MIN, &mut rate), rate), (19, [0; 5]));
    }
}

#[test]
fn only_rates_orders_and_thirds_are_read() {
    assert_eq!(rate_of([1, 23, 59, 59, 59]), Some(negated(LONGEST)));
    for numbers in [
        [2, 1, 0, 0, 0],
        [0, 24, 0, 0, 0],
        [0, 0, 60, 0, 0],
        [0, 0, 0, 60, 0],
        [0, 0, 0, 0, 60],
        [1, 0, 0, 0, 0],
    ] {
        assert_eq!(rate_of(numbers), None, "{numbers:?}");
    }
    let orders = [None, Some(Less), Some(Equal), Some(Greater), None];
    assert_eq!([0, 1, 2, 3, 4].map(|n| order_of([n])), orders);
    let end = RATE_THIRDS_END;
    assert_eq!([end, -end].map(|n| thirds_of([n])), [None; 2]);
    assert_eq!([end - 1, 1 - end].map(|n| thirds_of([n])), [Some(end - 1), Some(1 - end)]);
}

#[test]
#[should_panic(expected = "the library answered 0 with [0, 24, 0, 0, 0]")]
fn a_rate_out_of_range_is_a_fault() {
    let _ = told(0, [0, 24, 0, 0, 0], rate_of);
}

#[test]
#[should_panic(expected = "the library answered 0 with [2, 1, 0, 0, 0]")]
fn a_sign_over_1_is_a_fault() {
    let _ = told(0, [2, 1, 0, 0, 0], rate_of);
}

#[test]
#[should_panic(expected = "the library answered 0 with [4]")]
fn another_order_is_a_fault() {
    let _ = told(0, [4], order_of);
}

#[test]
#[should_panic(expected = "the library answered 0 with [-5184000]")]
fn thirds_of_no_rate_are_a_fault() {
    let _ = told(0, [-5_184_000], thirds_of);
}

#[test]
#[should_panic(expected = "the library answered 19 with [0, 0, 0, 0, 1]")]
fn a_refusal_with_a_rate_is_a_fault() {
    let _ = told(19, [0, 0, 0, 0, 1], rate_of);
}

#[test]
#[should_panic(expected = "the library answered 18 with [0]")]
fn another_refusal_is_a_fault() {
    let _ = told(18, [0], thirds_of);
}
