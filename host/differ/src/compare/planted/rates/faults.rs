//! The port's calls on rates, each with a fault.

use rate::END;

use crate::compare::rates::LENT;
use crate::describe::{rate_of, thirds_of, Rate};

const ZERO: Rate = [0; 5];

fn is_rate(rate: &Rate) -> bool {
    (LENT.to_thirds)(rate, &mut [0]) == 0
}

/// The thirds of both, where both are rates.
fn both(a: &Rate, b: &Rate) -> Option<[i64; 2]> {
    (is_rate(a) && is_rate(b)).then(|| [a, b].map(thirds_of))
}

fn are_alike(a: &Rate, b: &Rate) -> bool {
    (a[0] == 0) == (b[0] == 0)
}

/// Accepts with so many thirds.
fn accepts(thirds: i64, rate: &mut Rate) -> u32 {
    *rate = rate_of(thirds);
    0
}

/// Adds place by place where both have one sign, with a carry where that is said of a place.
fn adds_by(a: &Rate, b: &Rate, sum: &mut Rate, carried: fn(usize, u32) -> bool) -> u32 {
    let number = (LENT.add)(a, b, sum);
    if number == 0 && are_alike(a, b) {
        let mut carry = 0;
        for at in (1..5).rev() {
            sum[at] = a[at] + b[at] + carry;
            carry = u32::from(carried(at, sum[at]));
            sum[at] -= 60 * carry;
        }
    }
    number
}

pub fn leaves_60(a: &Rate, b: &Rate, sum: &mut Rate) -> u32 {
    adds_by(a, b, sum, |_, place| place > 60)
}

pub fn keeps_60_minutes(a: &Rate, b: &Rate, sum: &mut Rate) -> u32 {
    adds_by(a, b, sum, |at, place| at > 2 && place >= 60)
}

pub fn loses_a_carry(a: &Rate, b: &Rate, sum: &mut Rate) -> u32 {
    let number = (LENT.add)(a, b, sum);
    if number == 0 && are_alike(a, b) {
        sum[1] = a[1] + b[1];
    }
    number
}

pub fn wraps_at_24_hours(a: &Rate, b: &Rate, sum: &mut Rate) -> u32 {
    match both(a, b) {
        Some([x, y]) => (LENT.from_thirds)((x + y) % END, sum),
        None => (LENT.add)(a, b, sum),
    }
}

/// With hours up to 59 as the others.
pub fn goes_on_to_60_hours(a: &Rate, b: &Rate, sum: &mut Rate) -> u32 {
    match both(a, b) {
        Some([x, y]) => accepts(x + y, sum),
        None => (LENT.add)(a, b, sum),
    }
}

pub fn refuses_the_longest(a: &Rate, b: &Rate, sum: &mut Rate) -> u32 {
    match (LENT.add)(a, b, sum) {
        0 if sum[1..] == [23, 59, 59, 59] => {
            *sum = ZERO;
            19
        }
        number => number,
    }
}

pub fn takes_the_first_sign(a: &Rate, b: &Rate, sum: &mut Rate) -> u32 {
    let number = (LENT.add)(a, b, sum);
    if *sum != ZERO {
        sum[0] = a[0].min(1);
    }
    number
}

/// An accepted zero gets the first's sign.
fn signs_zero(number: u32, a: &Rate, answer: &mut Rate) -> u32 {
    if number == 0 && *answer == ZERO {
        answer[0] = a[0].min(1);
    }
    number
}

pub fn adds_to_minus_zero(a: &Rate, b: &Rate, sum: &mut Rate) -> u32 {
    signs_zero((LENT.add)(a, b, sum), a, sum)
}

pub fn answers_the_lent_sign(a: &Rate, b: &Rate, sum: &mut Rate) -> u32 {
    let number = (LENT.add)(a, b, sum);
    sum[0] *= a[0].max(1);
    number
}

/// Adds rates that are read in another way.
fn adds_as(a: &Rate, b: &Rate, sum: &mut Rate, read: fn(&Rate) -> Rate) -> u32 {
    (LENT.add)(&read(a), &read(b), sum)
}

pub fn takes_2_for_plus(a: &Rate, b: &Rate, sum: &mut Rate) -> u32 {
    adds_as(a, b, sum, |&[sign, hours, minutes, seconds, thirds]| {
        [u32::from(sign == 1), hours, minutes, seconds, thirds]
    })
}

pub fn takes_minus_zero(a: &Rate, b: &Rate, sum: &mut Rate) -> u32 {
    adds_as(a, b, sum, |rate| if rate[1..] == [0; 4] { ZERO } else { *rate })
}

pub fn takes_60_minutes(a: &Rate, b: &Rate, sum: &mut Rate) -> u32 {
    adds_as(a, b, sum, |rate| if rate[2] == 60 { rate_of(thirds_of(rate)) } else { *rate })
}

pub fn takes_places_as_bytes(a: &Rate, b: &Rate, sum: &mut Rate) -> u32 {
    adds_as(a, b, sum, |&[sign, places @ ..]| {
        let [hours, minutes, seconds, thirds] = places.map(|place| place & 0xFF);
        [sign, hours, minutes, seconds, thirds]
    })
}

pub fn judges_the_first_alone(a: &Rate, b: &Rate, sum: &mut Rate) -> u32 {
    (LENT.add)(a, if is_rate(b) { b } else { &ZERO }, sum)
}

pub fn leaves_the_sum(a: &Rate, b: &Rate, sum: &mut Rate) -> u32 {
    let before = *sum;
    let number = (LENT.add)(a, b, sum);
    if number > 0 {
        *sum = before;
    }
    number
}

pub fn refuses_by_18(a: &Rate, b: &Rate, sum: &mut Rate) -> u32 {
    (LENT.add)(a, b, sum).min(18)
}

pub fn loses_a_borrow(a: &Rate, b: &Rate, difference: &mut Rate) -> u32 {
    let number = (LENT.subtract)(a, b, difference);
    if number == 0 && are_alike(a, b) {
        difference[1] = a[1].abs_diff(b[1]);
    }
    number
}

pub fn leaves_minus_zero(a: &Rate, b: &Rate, difference: &mut Rate) -> u32 {
    signs_zero((LENT.subtract)(a, b, difference), a, difference)
}

pub fn turns_both(a: &Rate, b: &Rate, difference: &mut Rate) -> u32 {
    (LENT.subtract)(b, a, difference)
}

pub fn answers_24_hours(a: &Rate, b: &Rate, difference: &mut Rate) -> u32 {
    match both(a, b) {
        Some([x, y]) if (x - y).abs() == END => accepts(x - y, difference),
        _ => (LENT.subtract)(a, b, difference),
    }
}

/// Of two with minus, too.
pub fn longest_is_greatest(a: &Rate, b: &Rate, order: &mut [u64; 1]) -> u32 {
    match a[0] > 0 && b[0] > 0 {
        true => (LENT.compare)(b, a, order),
        false => (LENT.compare)(a, b, order),
    }
}

pub fn places_before_signs(a: &Rate, b: &Rate, order: &mut [u64; 1]) -> u32 {
    let number = (LENT.compare)(a, b, order);
    if number == 0 && a[1..] != b[1..] {
        *order = if a[1..] < b[1..] { [1] } else { [3] };
    }
    number
}

pub fn forgets_thirds(a: &Rate, b: &Rate, order: &mut [u64; 1]) -> u32 {
    let number = (LENT.compare)(a, b, order);
    if number == 0 && a[..4] == b[..4] {
        *order = [2];
    }
    number
}

pub fn refuses_as_equal(a: &Rate, b: &Rate, order: &mut [u64; 1]) -> u32 {
    let number = (LENT.compare)(a, b, order);
    if number > 0 {
        *order = [2];
    }
    number
}

pub fn forgets_minus(rate: &Rate, thirds: &mut [i64; 1]) -> u32 {
    let number = (LENT.to_thirds)(rate, thirds);
    *thirds = thirds.map(i64::abs);
    number
}

pub fn takes_24_hours(rate: &Rate, thirds: &mut [i64; 1]) -> u32 {
    match rate[1] {
        24 => {
            *thirds = [thirds_of(rate)];
            0
        }
        _ => (LENT.to_thirds)(rate, thirds),
    }
}

pub fn leaves_the_thirds(rate: &Rate, thirds: &mut [i64; 1]) -> u32 {
    match is_rate(rate) {
        true => (LENT.to_thirds)(rate, thirds),
        false => 19,
    }
}

pub fn has_24_hours(thirds: i64, rate: &mut Rate) -> u32 {
    match thirds {
        END => accepts(thirds, rate),
        _ => (LENT.from_thirds)(thirds, rate),
    }
}

pub fn has_60_seconds(thirds: i64, rate: &mut Rate) -> u32 {
    let number = (LENT.from_thirds)(thirds, rate);
    if rate[2] > 0 && rate[3] == 0 {
        rate[2] -= 1;
        rate[3] = 60;
    }
    number
}

pub fn is_never_minus(thirds: i64, rate: &mut Rate) -> u32 {
    let number = (LENT.from_thirds)(thirds, rate);
    rate[0] = 0;
    number
}

pub fn is_minus_at_zero(thirds: i64, rate: &mut Rate) -> u32 {
    let number = (LENT.from_thirds)(thirds, rate);
    rate[0] |= u32::from(thirds == 0);
    number
}

pub fn has_32_bits(thirds: i64, rate: &mut Rate) -> u32 {
    (LENT.from_thirds)(i64::from(thirds as i32), rate)
}

/// The least number stays below 0 where its sign is turned.
pub fn takes_the_least(thirds: i64, rate: &mut Rate) -> u32 {
    match thirds {
        i64::MIN => accepts(thirds % END, rate),
        _ => (LENT.from_thirds)(thirds, rate),
    }
}

pub fn leaves_the_rate(thirds: i64, rate: &mut Rate) -> u32 {
    match (1 - END..END).contains(&thirds) {
        true => (LENT.from_thirds)(thirds, rate),
        false => 19,
    }
}

pub fn accepts_zeros(thirds: i64, rate: &mut Rate) -> u32 {
    (LENT.from_thirds)(thirds, rate);
    0
}
