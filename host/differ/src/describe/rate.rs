//! Daily rates in sixtieths, two of them or numbers of thirds.

use proptest::prelude::*;
use proptest::sample::select;
use rate::END;

use super::run::standing;
use crate::store::lent::Standing;

/// The first number out of range of each place: hours, minutes, seconds, thirds.
pub const ENDS: [u32; 4] = [24, 60, 60, 60];
/// The thirds of nothing, of a second, of a minute, of an hour and of 24 hours.
pub const UNITS: [i64; 5] = [0, 60, 3_600, 216_000, END];

/// As it is lent: a sign, then its places.
pub type Rate = rate::Numbers;

/// Two rates, and how they and the answers are lent.
#[derive(Clone, Copy, Debug, PartialEq)]
pub struct Rates {
    pub first: Rate,
    pub second: Second,
    pub standing: [Standing; 3],
}

#[derive(Clone, Copy, Debug, PartialEq)]
pub enum Second {
    Own(Rate),
    /// Both come to so many thirds, with the first's sign.
    Sum(i64),
    /// The first less it comes to so many.
    Difference(i64),
}

/// A number of thirds, and how the answer is lent.
#[derive(Clone, Copy, Debug, PartialEq)]
pub struct Thirds {
    pub number: i64,
    pub standing: Standing,
}

impl Rates {
    pub fn of([first, second]: [Rate; 2]) -> Self {
        Rates { first, second: Second::Own(second), standing: [Standing::Guarded(0); 3] }
    }

    pub fn made(&self) -> [Rate; 2] {
        let first = thirds_of(&self.first);
        let signed = |wanted: i64| if first < 0 { -wanted } else { wanted };
        let second = match self.second {
            Second::Own(second) => second,
            Second::Sum(wanted) => rate_of(signed(wanted) - first),
            Second::Difference(wanted) => rate_of(first - signed(wanted)),
        };
        [self.first, second]
    }
}

impl Thirds {
    pub fn of(number: i64) -> Self {
        Thirds { number, standing: Standing::Guarded(0) }
    }
}

/// Of places in range or not.
pub fn thirds_of(rate: &Rate) -> i64 {
    let [sign, hours, minutes, seconds, thirds] = rate.map(i64::from);
    let all = ((hours * 60 + minutes) * 60 + seconds) * 60 + thirds;
    match sign {
        0 => all,
        _ => -all,
    }
}

/// With hours out of range where there are too many thirds.
pub fn rate_of(thirds: i64) -> Rate {
    let all = thirds.unsigned_abs();
    let places = [all / 216_000, all / 3_600 % 60, all / 60 % 60, all % 60];
    let [hours, minutes, seconds, rest] = places.map(|place| place as u32);
    [u32::from(thirds < 0), hours, minutes, seconds, rest]
}

/// Mostly in range, and then often at either end. It is drawn from rising numbers, so that it is
/// made smaller by its size.
fn place(end: u32) -> impl Strategy<Value = u32> {
    let inside: Vec<u32> = (0..end).collect();
    let edges = [0, 1, end - 2, end - 1];
    let beyond = vec![end, end + 1, 60, 61, 255, 256, 1 << 16, u32::MAX];
    let mut numbers = [inside.repeat(4), edges.repeat(end as usize), beyond].concat();
    numbers.sort();
    select(numbers)
}

/// Now and then zero, with either sign.
fn rate() -> impl Strategy<Value = Rate> {
    let sign = [&[0; 25][..], &[1; 25], &[2, 3, 256, 1 << 31, u32::MAX]].concat();
    let places = prop_oneof![1 => Just([0; 4]), 20 => ENDS.map(place)];
    (select(sign), places).prop_map(|(sign, [hours, minutes, seconds, thirds])| {
        [sign, hours, minutes, seconds, thirds]
    })
}

/// About those from which on there is a place more, or no rate.
fn about() -> impl Strategy<Value = i64> {
    (select(&UNITS[..]), -2..=2i64).prop_map(|(unit, more)| unit + more)
}

/// Half of them are opposite, equal, nearly so, or as long as a rate can be in all.
pub fn two_rates(alone: bool) -> impl Strategy<Value = Rates> {
    let second = prop_oneof![
        2 => rate().prop_map(Second::Own),
        1 => about().prop_map(Second::Sum),
        1 => about().prop_map(Second::Difference),
    ];
    let standing = [standing(alone), standing(alone), standing(alone)];
    (second, rate(), standing).prop_map(|(second, first, standing)| Rates {
        first,
        second,
        standing,
    })
}

/// Most of them have a rate; the others are made smaller to the first that has none.
pub fn thirds(alone: bool) -> impl Strategy<Value = Thirds> {
    // A rate's in their lower bits.
    let wide = (32..64, 0..END).prop_map(|(bit, low)| low.wrapping_add(1i64 << bit));
    let number = prop_oneof![
        4 => about(),
        4 => 0..END,
        1 => END..END + 100,
        1 => wide,
        1 => select(&[i64::MAX, i64::MIN][..]),
        1 => any::<i64>(),
    ];
    (number, any::<bool>(), standing(alone)).prop_map(|(number, minus, standing)| Thirds {
        number: if minus { number.wrapping_neg() } else { number },
        standing,
    })
}

#[cfg(test)]
mod tests {
    use super::*;

    #[test]
    fn a_rate_has_its_thirds() {
        assert_eq!(thirds_of(&[0, 1, 2, 3, 4]), 216_000 + 2 * 3_600 + 3 * 60 + 4);
        assert_eq!(thirds_of(&[7, 0, 0, 60, 61]), -3_661);
        for thirds in UNITS.into_iter().flat_map(|unit| [unit - 1, unit, -unit, 1 - unit]) {
            assert_eq!(thirds_of(&rate_of(thirds)), thirds);
        }
        assert_eq!(rate_of(-END), [1, 24, 0, 0, 0]);
    }

    #[test]
    fn two_rates_are_made_as_they_are_described() {
        let second = |sign, second| {
            let both = Rates { first: [sign, 0, 0, 1, 0], second, ..Rates::of([[0; 5]; 2]) };
            both.made()[1]
        };
        assert_eq!(second(0, Second::Own([9; 5])), [9; 5]);
        assert_eq!(second(0, Second::Sum(0)), [1, 0, 0, 1, 0]);
        assert_eq!(second(1, Second::Sum(END)), [1, 23, 59, 59, 0]);
        assert_eq!(second(1, Second::Difference(0)), [1, 0, 0, 1, 0]);
        assert_eq!(second(0, Second::Difference(END - 1)), [1, 23, 59, 58, 59]);
    }
}
