//! The calls on rates in one form: N8's as our own Rust says them, the port's on lent numbers, and
//! the port's by the types of its crate.

use std::cmp::Ordering;

use feqyondil::lent::rate as lent;
use feqyondil::{rate_add, rate_compare, rate_from_thirds, rate_subtract, rate_to_thirds};
use feqyondil::{Rate as Typed, Refusal};
use rate::REFUSED;

use crate::describe::Rate;

pub type OfTwo<T, const N: usize> = fn(&Rate, &Rate, &mut [T; N]) -> u32;

/// Each answers its number, and fills an array.
#[derive(Clone, Copy)]
pub struct Calls {
    pub name: &'static str,
    pub add: OfTwo<u32, 5>,
    pub subtract: OfTwo<u32, 5>,
    pub compare: OfTwo<u64, 1>,
    pub to_thirds: fn(&Rate, &mut [i64; 1]) -> u32,
    pub from_thirds: fn(i64, &mut Rate) -> u32,
}

pub const SAID: Calls = Calls {
    name: "as N8 says",
    add: |a, b, sum| fill(rate::add(a, b).ok_or(REFUSED), sum),
    subtract: |a, b, difference| fill(rate::subtract(a, b).ok_or(REFUSED), difference),
    compare: |a, b, order| fill(rate::compare(a, b).map(numbered).ok_or(REFUSED), order),
    to_thirds: |rate, thirds| fill(rate::to_thirds(rate).map(|all| [all]).ok_or(REFUSED), thirds),
    from_thirds: |thirds, rate| fill(rate::from_thirds(thirds).ok_or(REFUSED), rate),
};

pub const LENT: Calls = Calls {
    name: "by numbers",
    add: lent::add,
    subtract: lent::subtract,
    compare: lent::compare,
    to_thirds: lent::to_thirds,
    from_thirds: lent::from_thirds,
};

pub const TYPED: Calls = Calls {
    name: "by types",
    add: |a, b, sum| fill(numbers(rate_add(typed(a), typed(b))), sum),
    subtract: |a, b, difference| fill(numbers(rate_subtract(typed(a), typed(b))), difference),
    compare: |a, b, order| fill(told(rate_compare(typed(a), typed(b)), numbered), order),
    to_thirds: |rate, thirds| fill(told(rate_to_thirds(typed(rate)), |all| [all]), thirds),
    from_thirds: |thirds, rate| fill(numbers(rate_from_thirds(thirds)), rate),
};

/// Fills with the answer, or with zeros beside a refusal's number.
fn fill<T: Copy + Default, const N: usize>(answer: Result<[T; N], u32>, out: &mut [T; N]) -> u32 {
    *out = answer.unwrap_or([T::default(); N]);
    answer.err().unwrap_or(0)
}

/// An order's number.
fn numbered(order: Ordering) -> [u64; 1] {
    match order {
        Ordering::Less => [1],
        Ordering::Equal => [2],
        Ordering::Greater => [3],
    }
}

fn typed(&[sign, hours, minutes, seconds, thirds]: &Rate) -> Typed {
    Typed { minus: sign != 0, places: [hours, minutes, seconds, thirds] }
}

fn told<A, T>(answer: Result<A, Refusal>, numbers: fn(A) -> T) -> Result<T, u32> {
    answer.map(numbers).map_err(Refusal::number)
}

fn numbers(answer: Result<Typed, Refusal>) -> Result<Rate, u32> {
    told(answer, |Typed { minus, places: [hours, minutes, seconds, thirds] }| {
        [minus.into(), hours, minutes, seconds, thirds]
    })
}
