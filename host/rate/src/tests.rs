//! N8's words, one after the other.

use super::*;

use Ordering::{Equal, Greater, Less};

const ZERO: Numbers = [0; 5];
const THIRD: Numbers = [0, 0, 0, 0, 1];
const LONGEST: Numbers = [0, 23, 59, 59, 59];

fn minus([_, hours, minutes, seconds, thirds]: Numbers) -> Numbers {
    [1, hours, minutes, seconds, thirds]
}

/// It is refused by each call, on either side.
fn is_none(rate: &Numbers) -> bool {
    let refused = |a, b| (add(a, b), subtract(a, b), compare(a, b)) == (None, None, None);
    let sides = [(rate, &THIRD), (&THIRD, rate), (rate, rate)];
    to_thirds(rate).is_none() && sides.into_iter().all(|(a, b)| refused(a, b))
}

#[test]
fn hours_run_to_23_and_the_others_to_59() {
    for (place, most) in [(1, 23), (2, 59), (3, 59), (4, 59)] {
        for sign in [0, 1] {
            let mut rate = [sign, 0, 0, 0, 0];
            rate[place] = most;
            assert_eq!(add(&rate, &ZERO), Some(rate));
            for over in [most + 1, 1 << 8, 1 << 16, 1 << 31, u32::MAX] {
                rate[place] = over;
                assert!(is_none(&rate), "{rate:?}");
            }
        }
    }
}

#[test]
fn minus_zero_does_not_exist() {
    assert_eq!(to_thirds(&ZERO), Some(0));
    for sign in [1, 2, 1 << 31, u32::MAX] {
        assert!(is_none(&[sign, 0, 0, 0, 0]), "{sign}");
    }
    let rate = [1, 2, 3, 4, 5];
    assert_eq!((subtract(&rate, &rate), from_thirds(0)), (Some(ZERO), Some(ZERO)));
}

#[test]
fn every_sign_but_0_is_minus() {
    for sign in [1, 2, 1 << 31, u32::MAX] {
        let rate = [sign, 2, 3, 4, 5];
        assert_eq!(add(&rate, &ZERO), Some([1, 2, 3, 4, 5]));
        assert_eq!(subtract(&ZERO, &rate), Some([0, 2, 3, 4, 5]));
        assert_eq!(compare(&rate, &[1, 2, 3, 4, 5]), Some(Equal));
    }
}

#[test]
fn one_third_is_a_sixtieth_of_a_second() {
    for (place, thirds) in [(1, 60 * 60 * 60), (2, 60 * 60), (3, 60), (4, 1)] {
        let mut rate = ZERO;
        rate[place] = 1;
        assert_eq!((to_thirds(&rate), to_thirds(&minus(rate))), (Some(thirds), Some(-thirds)));
    }
    assert_eq!(to_thirds(&[1, 1, 2, 3, 4]), Some(-(216_000 + 2 * 3_600 + 3 * 60 + 4)));
    assert_eq!(to_thirds(&LONGEST), Some(5_183_999));
}

#[test]
fn whole_thirds_below_24_hours_go_both_ways() {
    assert_eq!(END, 5_184_000);
    for thirds in 1 - END..END {
        let rate = from_thirds(thirds).expect("a rate");
        assert_eq!((to_thirds(&rate), rate[0]), (Some(thirds), u32::from(thirds < 0)));
    }
    for thirds in [END, END + 1, 1 << 32, i64::MAX] {
        assert_eq!((from_thirds(thirds), from_thirds(-thirds)), (None, None), "{thirds}");
    }
    assert_eq!(from_thirds(i64::MIN), None);
}

#[test]
fn sums_carry_and_differences_borrow() {
    let (most, hour) = ([0, 0, 59, 59, 59], [0, 1, 0, 0, 0]);
    assert_eq!(add(&most, &THIRD), Some(hour));
    assert_eq!(subtract(&hour, &THIRD), Some(most));
    assert_eq!(subtract(&minus(most), &THIRD), Some(minus(hour)));
    assert_eq!(add(&minus(hour), &THIRD), Some(minus(most)));
    assert_eq!(subtract(&THIRD, &hour), Some(minus(most)));
    assert_eq!(add(&[0, 1, 2, 3, 4], &[1, 5, 6, 7, 8]), Some([1, 4, 4, 4, 4]));
    assert_eq!(add(&[0, 11, 29, 29, 29], &[0, 12, 30, 30, 30]), Some(LONGEST));
}

#[test]
fn a_sum_or_difference_of_24_hours_is_refused() {
    let below = [0, 23, 59, 59, 58];
    assert_eq!(add(&below, &THIRD), Some(LONGEST));
    assert_eq!(subtract(&minus(below), &THIRD), Some(minus(LONGEST)));
    assert_eq!((add(&LONGEST, &THIRD), add(&LONGEST, &LONGEST)), (None, None));
    assert_eq!(subtract(&minus(LONGEST), &THIRD), None);
    assert_eq!(subtract(&LONGEST, &minus(THIRD)), None);
    assert_eq!(subtract(&LONGEST, &LONGEST), Some(ZERO));
}

#[test]
fn rates_are_ordered_as_their_thirds() {
    let rising = [minus(LONGEST), [1, 1, 0, 0, 0], [1, 0, 59, 59, 59], minus(THIRD), ZERO, THIRD];
    for (i, a) in rising.iter().enumerate() {
        for (k, b) in rising.iter().enumerate() {
            assert_eq!(compare(a, b), Some(i.cmp(&k)), "{a:?} {b:?}");
        }
    }
    assert_eq!((compare(&THIRD, &LONGEST), compare(&LONGEST, &THIRD)), (Some(Less), Some(Greater)));
}
