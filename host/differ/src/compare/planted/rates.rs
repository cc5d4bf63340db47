//! Faults of the calls on rates.

mod faults;

use super::{found, has, is_found};
use crate::compare::rates::{Calls, FromThirds, Rates, LENT, TYPED};
use crate::describe::{self, thirds, two_rates, Thirds};
use faults::*;

/// A fault, how much the numbers in what shows it come to at most, and words of what is told.
type Row = (Calls, u64, &'static [&'static str]);

const ZERO: &str = "accepted, [0, 0, 0, 0, 0]";
const MINUS_ZERO: &str = "N8:   accepted, [0, 0, 0, 0, 0]\n  port: accepted, [1, 0, 0, 0, 0]";
const REFUSED: &str = "N8:   refused by 19, [0, 0, 0, 0, 0]\n  port: ";

const SUMS: [Row; 16] = [
    (Calls { add: leaves_60, ..LENT }, 60, &["port: accepted, [0, 0, 60, 0, 0]"]),
    (Calls { add: keeps_60_minutes, ..LENT }, 60, &["port: accepted, [0, 0, 60, 0, 0]"]),
    (Calls { add: loses_a_carry, ..LENT }, 60, &["[0, 1, 0, 0, 0]\n  port: ", ZERO]),
    (Calls { add: wraps_at_24_hours, ..LENT }, 24, &[REFUSED, ZERO]),
    (Calls { add: goes_on_to_60_hours, ..LENT }, 24, &[REFUSED, "accepted, [0, 24, 0, 0, 0]"]),
    (Calls { add: refuses_the_longest, ..LENT }, 200, &["23, 59, 59, 59]\n  port: refused by 19"]),
    (Calls { add: takes_the_first_sign, ..LENT }, 2, &["the sum\n", "port: accepted, [0, "]),
    (Calls { add: adds_to_minus_zero, ..LENT }, 3, &[MINUS_ZERO]),
    (Calls { add: answers_the_lent_sign, ..LENT }, 3, &["the sum\n", "port: accepted, [2, "]),
    (Calls { add: takes_2_for_plus, ..LENT }, 3, &["the sum\n", "port: accepted, [0, "]),
    (Calls { add: takes_minus_zero, ..LENT }, 1, &[REFUSED, ZERO]),
    (Calls { add: takes_60_minutes, ..LENT }, 60, &[REFUSED, "accepted, [0, 1, 0, 0, 0]"]),
    (Calls { add: takes_places_as_bytes, ..LENT }, 277, &[REFUSED, "accepted, "]),
    (Calls { add: judges_the_first_alone, ..LENT }, 60, &[REFUSED, "accepted, "]),
    (Calls { add: leaves_the_sum, ..LENT }, 24, &[REFUSED, "refused by 19, [165, 165, "]),
    (Calls { add: refuses_by_18, ..LENT }, 24, &[REFUSED, "refused by 18, [0, 0, "]),
];

const OTHERS: [Row; 11] = [
    (Calls { subtract: loses_a_borrow, ..LENT }, 60, &["the difference\n", "port: accepted, "]),
    (Calls { subtract: leaves_minus_zero, ..LENT }, 4, &["the difference\n", MINUS_ZERO]),
    (Calls { subtract: turns_both, ..LENT }, 1, &["[1, 0, 0, 0, 1]\n", "[0, 0, 0, 0, 1]"]),
    (Calls { subtract: answers_24_hours, ..LENT }, 202, &[REFUSED, "accepted, [0, 24, 0, 0, 0]"]),
    (Calls { compare: longest_is_greatest, ..LENT }, 4, &["N8:   accepted, [1]\n  port: ", "[3]"]),
    (Calls { compare: places_before_signs, ..LENT }, 2, &["N8:   accepted, [3]\n  port: ", "[1]"]),
    (Calls { compare: forgets_thirds, ..LENT }, 1, &["the order\n", "port: accepted, [2]"]),
    (Calls { compare: refuses_as_equal, ..LENT }, 60, &["19, [0]\n  port: refused by 19, [2]"]),
    (Calls { to_thirds: forgets_minus, ..LENT }, 2, &["accepted, [-1]\n  port: accepted, [1]"]),
    (Calls { to_thirds: takes_24_hours, ..LENT }, 24, &["19, [0]\n  port: accepted, [5184000]"]),
    (Calls { to_thirds: leaves_the_thirds, ..LENT }, 60, &["[0]\n  port: refused by 19, [165]"]),
];

const FROM_THIRDS: [Row; 8] = [
    (Calls { from_thirds: has_24_hours, ..LENT }, 5_184_000, &[REFUSED, "accepted, [0, 24, 0, "]),
    (Calls { from_thirds: has_60_seconds, ..LENT }, 3_600, &["accepted, [0, 0, 0, 60, 0]"]),
    (Calls { from_thirds: is_never_minus, ..LENT }, 1, &["[1, 0, 0, 0, 1]\n", "[0, 0, 0, 0, 1]"]),
    (Calls { from_thirds: is_minus_at_zero, ..LENT }, 0, &[MINUS_ZERO]),
    (Calls { from_thirds: has_32_bits, ..LENT }, 1 << 32, &[REFUSED, "accepted, "]),
    (Calls { from_thirds: takes_the_least, ..LENT }, 1 << 63, &[REFUSED, "accepted, [1, "]),
    (Calls { from_thirds: leaves_the_rate, ..LENT }, 5_184_000, &[REFUSED, "by 19, [165, 165, "]),
    (Calls { from_thirds: accepts_zeros, ..LENT }, 5_184_000, &[REFUSED, ZERO]),
];

fn of_rates(input: &describe::Rates) -> u64 {
    input.made().concat().into_iter().map(u64::from).sum()
}

fn of_thirds(input: &Thirds) -> u64 {
    input.number.unsigned_abs()
}

#[test]
fn faults_are_found_in_calls_on_rates() {
    for (calls, most, words) in SUMS.into_iter().chain(OTHERS) {
        let rates = Rates { port: [calls, TYPED] };
        is_found(&rates, two_rates(false), of_rates, (most, words));
    }
}

#[test]
fn faults_are_found_in_rates_from_thirds() {
    for (calls, most, words) in FROM_THIRDS {
        let rates = FromThirds { port: [calls, TYPED] };
        is_found(&rates, thirds(false), of_thirds, (most, words));
    }
}

/// Also in the other form.
#[test]
fn faults_are_found_by_types() {
    let rates = Rates { port: [LENT, Calls { add: leaves_60, ..TYPED }] };
    is_found(&rates, two_rates(false), of_rates, (60, &["by types: "]));
}

/// A fault of a call shows where it is asked to go back, too.
#[test]
fn what_is_accepted_goes_back() {
    let port = [Calls { from_thirds: is_never_minus, ..LENT }, TYPED];
    has(&found(&Rates { port }, two_rates(false)).why, &["back again, the rate of its thirds\n"]);
    let port = [Calls { to_thirds: forgets_minus, ..LENT }, TYPED];
    has(&found(&FromThirds { port }, thirds(false)).why, &["back again, its thirds\n"]);
}
