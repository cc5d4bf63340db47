//! Daily rates in sixtieths: a sign, and hours, minutes, seconds and thirds.

use core::cmp::Ordering;
use core::fmt::Debug;

use crate::lent;
use crate::refusal::Refusal;

/// Numbers of a rate, as the calls of [`lent::rate`] take them.
pub const RATE_NUMBERS: usize = 5;
/// Place of the sign among them.
pub const RATE_SIGN: usize = 0;
/// Of the hours.
pub const RATE_HOURS: usize = 1;
/// Of the minutes.
pub const RATE_MINUTES: usize = 2;
/// Of the seconds.
pub const RATE_SECONDS: usize = 3;
/// Of the thirds.
pub const RATE_THIRDS: usize = 4;
/// A rate's thirds are fewer, either way: those of 24 hours.
pub const RATE_THIRDS_END: i64 = 5_184_000;

/// A daily rate. Hours are 0 to 23, the others 0 to 59, and minus zero does not exist: so a number
/// of whole thirds below [`RATE_THIRDS_END`], either way, has one rate.
///
/// Refusal of each call: RateRange where a rate that it is lent has a place out of range or is
/// minus zero, or where what it is to answer has no rate.
#[derive(Clone, Copy, Debug, Eq, PartialEq)]
pub struct Rate {
    /// Whether it is below zero.
    pub minus: bool,
    /// Hours, minutes, seconds, and thirds, of which one is 1/60 second.
    pub places: [u32; 4],
}

impl Rate {
    /// As the calls of [`lent::rate`] take it.
    pub fn numbers(self) -> [u32; RATE_NUMBERS] {
        let [hours, minutes, seconds, thirds] = self.places;
        [u32::from(self.minus), hours, minutes, seconds, thirds]
    }
}

/// The sum of two rates.
pub fn rate_add(a: Rate, b: Rate) -> Result<Rate, Refusal> {
    let mut sum = [u32::MAX; RATE_NUMBERS];
    let number = lent::rate::add(&a.numbers(), &b.numbers(), &mut sum);
    told(number, sum, rate_of)
}

/// The first rate less the second.
pub fn rate_subtract(a: Rate, b: Rate) -> Result<Rate, Refusal> {
    let mut difference = [u32::MAX; RATE_NUMBERS];
    let number = lent::rate::subtract(&a.numbers(), &b.numbers(), &mut difference);
    told(number, difference, rate_of)
}

/// Whether the first rate is less than the second, equal to it or greater: of two with minus, the
/// longer is less.
pub fn rate_compare(a: Rate, b: Rate) -> Result<Ordering, Refusal> {
    let mut answer = [u64::MAX];
    let number = lent::rate::compare(&a.numbers(), &b.numbers(), &mut answer);
    told(number, answer, order_of)
}

/// The whole thirds of a rate, below 0 where it is minus.
pub fn rate_to_thirds(rate: Rate) -> Result<i64, Refusal> {
    let mut answer = [i64::MAX];
    let number = lent::rate::to_thirds(&rate.numbers(), &mut answer);
    told(number, answer, thirds_of)
}

/// The rate of so many thirds: [`rate_to_thirds`] answers them again.
pub fn rate_from_thirds(thirds: i64) -> Result<Rate, Refusal> {
    let mut answer = [u32::MAX; RATE_NUMBERS];
    let number = lent::rate::from_thirds(thirds, &mut answer);
    told(number, answer, rate_of)
}

/// What a call's answer means, `of` reading an accepted one. One that the library does not promise
/// is a fault of its own, and ends the program.
fn told<N, const LEN: usize, T>(
    number: u32,
    answer: [N; LEN],
    of: fn([N; LEN]) -> Option<T>,
) -> Result<T, Refusal>
where
    N: Copy + Debug + Default + PartialEq,
{
    match (Refusal::check(number), of(answer)) {
        (Ok(()), Some(told)) => Ok(told),
        (Err(Refusal::RateRange), _) if answer == [N::default(); LEN] => Err(Refusal::RateRange),
        _ => panic!("the library answered {number} with {answer:?}"),
    }
}

/// The rate that has these numbers, if there is one, with sign 0 or 1.
pub(crate) fn rate_of(numbers: [u32; RATE_NUMBERS]) -> Option<Rate> {
    match numbers {
        [1, 0, 0, 0, 0] => None,
        [sign @ 0..=1, hours @ 0..=23, minutes @ 0..=59, seconds @ 0..=59, thirds @ 0..=59] => {
            Some(Rate { minus: sign == 1, places: [hours, minutes, seconds, thirds] })
        }
        _ => None,
    }
}

/// The order that has this number.
pub(crate) fn order_of([number]: [u64; 1]) -> Option<Ordering> {
    match number {
        1 => Some(Ordering::Less),
        2 => Some(Ordering::Equal),
        3 => Some(Ordering::Greater),
        _ => None,
    }
}

/// Those that a rate can have.
fn thirds_of([thirds]: [i64; 1]) -> Option<i64> {
    (-RATE_THIRDS_END < thirds && thirds < RATE_THIRDS_END).then_some(thirds)
}

#[cfg(test)]
mod tests;
