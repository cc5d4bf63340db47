//! What two rates or a number of thirds are counted as. Two rates are gone through place by place,
//! as by hand, and not by their thirds: so what is refused is seen from another side.

use rate::END;

use super::{Answer, Answers};
use crate::describe::{thirds_of, Rate, ENDS};
use crate::judge::Numbers;

/// A kind's name, and whether it is met.
type Kind = (&'static str, bool);

/// What is met in two rates.
struct Walk {
    signs: [u32; 2],
    /// Of each, a place is out of range, or it is minus zero.
    out: [bool; 2],
    minus_zero: [bool; 2],
    /// Where both are added, from each place to the one before it; from hours the sum is over.
    carries: [bool; 4],
    /// Where the shorter is taken from the longer, by each place from the one before it.
    borrows: [bool; 4],
    equal: bool,
}

impl Walk {
    fn of(rates: [Rate; 2]) -> Self {
        let signs = rates.map(|[sign, ..]| sign);
        let places = rates.map(|[_, places @ ..]| places);
        let mut walk = Walk {
            signs,
            out: places.map(|places| !in_range(&places)),
            minus_zero: [0, 1].map(|at| signs[at] != 0 && places[at] == [0; 4]),
            carries: [false; 4],
            borrows: [false; 4],
            equal: places[0] == places[1],
        };
        if walk.both() {
            walk.carries = carries(places);
            walk.borrows = borrows(places);
        }
        walk
    }

    fn is_rate(&self, at: usize) -> bool {
        !self.out[at] && !self.minus_zero[at]
    }

    fn both(&self) -> bool {
        self.is_rate(0) && self.is_rate(1)
    }

    fn minus(&self) -> [bool; 2] {
        self.signs.map(|sign| sign != 0)
    }

    /// Whether the sum is over, and whether the difference is: of equal signs only the sum can be,
    /// of others only the difference.
    fn over(&self) -> [bool; 2] {
        let alike = self.minus()[0] == self.minus()[1];
        [alike, !alike].map(|added| added && self.carries[0])
    }

    fn of_places(&self, accepted: bool) -> [Kind; 8] {
        let (carries, borrows) = (self.carries, self.borrows);
        [
            ("with a carry to seconds", accepted && carries[3]),
            ("with a carry to minutes", accepted && carries[2]),
            ("with a carry to hours", accepted && carries[1]),
            ("with a carry through all places", accepted && carries[1..] == [true; 3]),
            ("with a borrow from seconds", borrows[3]),
            ("with a borrow from minutes", borrows[2]),
            ("with a borrow from hours", borrows[1]),
            ("with a borrow through all places", borrows[1..] == [true; 3]),
        ]
    }

    /// The lengths are those of the sum and of the difference.
    fn of_results(&self, lengths: [i64; 2]) -> [Kind; 8] {
        let (over, zero) = (self.over(), self.both() && self.equal);
        let minus = self.minus();
        [
            ("with a sum of 0 from opposite rates", zero && minus[0] != minus[1]),
            ("with a difference of 0 from minus rates", zero && minus == [true; 2]),
            ("with a sum of 5,183,999 thirds", self.both() && lengths[0] == END - 1),
            ("with a difference of as many", self.both() && lengths[1] == END - 1),
            ("refused for the sum", over[0]),
            ("for one of 5,184,000 thirds", over[0] && lengths[0] == END),
            ("for the difference", over[1]),
            ("for one of as many", over[1] && lengths[1] == END),
        ]
    }

    fn of_rates(&self) -> [Kind; 5] {
        [
            ("for a place of the first", self.out[0]),
            ("for a place of the second", self.out[1]),
            ("for minus zero as the first", self.minus_zero[0]),
            ("for minus zero as the second", self.minus_zero[1]),
            ("accepted with a sign over 1", self.both() && self.signs.iter().any(|&sign| sign > 1)),
        ]
    }
}

fn in_range(places: &[u32; 4]) -> bool {
    places.iter().zip(ENDS).all(|(&place, end)| place < end)
}

fn carries([a, b]: [[u32; 4]; 2]) -> [bool; 4] {
    let (mut carries, mut carry) = ([false; 4], false);
    for at in (0..4).rev() {
        carry = a[at] + b[at] + u32::from(carry) >= ENDS[at];
        carries[at] = carry;
    }
    carries
}

fn borrows([a, b]: [[u32; 4]; 2]) -> [bool; 4] {
    let (long, short) = (a.max(b), a.min(b));
    let (mut borrows, mut borrow) = ([false; 4], false);
    for at in (0..4).rev() {
        borrow = long[at] < short[at] + u32::from(borrow);
        borrows[at] = borrow;
    }
    borrows
}

pub fn of_rates(rates: [Rate; 2], said: &Answers) -> Numbers {
    let walk = Walk::of(rates);
    let [sum, difference] = walk.over().map(|over| walk.both() && !over);
    let accepted = [sum, difference, walk.both(), walk.is_rate(0), walk.is_rate(1)];
    let Answers { sum, difference, order, thirds: [first, second] } = said;
    let numbers = [sum.0, difference.0, order.0, first.0, second.0];
    assert_eq!(numbers.map(|number| number == 0), accepted, "the walk of {rates:?}");
    let all = accepted == [true; 5];
    let ([first], [second]) = (first.1, second.1);
    let lengths = [first + second, first - second].map(i64::abs);
    let less = *order == (0, [1]);
    let kinds = [
        &[("pairs as N8 says", true), ("accepted", all)][..],
        &walk.of_places(all),
        &walk.of_results(lengths),
        &walk.of_rates(),
        &[("less", less), ("less of two with minus", less && walk.minus() == [true; 2])],
        &[("equal", *order == (0, [2])), ("greater", *order == (0, [3]))],
    ];
    counted(&kinds.concat())
}

pub fn of_thirds(number: i64, (refused, rate): Answer<u32, 5>) -> Numbers {
    let (accepted, [sign, places @ ..]) = (refused == 0, rate);
    let has_sign = sign == u32::from(number < 0);
    let is_rate = in_range(&places) && has_sign && thirds_of(&rate) == number;
    assert_eq!(is_rate, accepted, "{rate:?} of {number}");
    let longest = places.iter().position(|&place| place > 0);
    let is = |place| accepted && longest == place;
    let low = i64::from(number as i32).abs();
    counted(&[
        ("numbers as N8 says", true),
        ("accepted", accepted),
        ("of 0", is(None)),
        ("of thirds alone", is(Some(3))),
        ("of seconds", is(Some(2))),
        ("of minutes", is(Some(1))),
        ("of hours", is(Some(0))),
        ("of 59 in each other place", accepted && places[1..] == [59; 3]),
        ("below 0", accepted && sign == 1),
        ("refused above", !accepted && number > 0),
        ("refused below", !accepted && number < 0),
        ("refused with a rate in 32 bits", !accepted && low < END),
    ])
}

fn counted(kinds: &[Kind]) -> Numbers {
    let numbers: Vec<_> = kinds.iter().map(|&(name, so)| (name, u64::from(so))).collect();
    Numbers::of(&numbers)
}
