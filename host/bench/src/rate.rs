//! Daily rates in sixtieths: each call over a fixed list, since one alone is too short to be timed.

use std::cell::RefCell;
use std::hint::black_box;

use ::rate::{Numbers, END, REFUSED};
use feqyondil::lent::rate as port;

use crate::measure::{Contender, Report};

/// What the port is to stay under, over the Rust.
const MOST: f64 = 1.5;
/// Calls for each figure.
const CALLS: i64 = 100;
/// Rates of fewer thirds have a sum and a difference.
const HALF: i64 = END / 2;
/// Thirds by which rates that are compared differ: none, or one of a place.
const APART: [i64; 5] = [0, 1, 60, 3_600, 216_000];

type Pair = [Numbers; 2];
/// Answers its number and fills its output.
type Call<I, O> = fn(&I, &mut O) -> u32;

struct Case<I, O> {
    name: &'static str,
    inputs: Vec<I>,
    rust: Call<I, O>,
    port: Call<I, O>,
}

impl<I, O: Default> Case<I, O> {
    /// Both fill the same output. The input that is timed is not looked at.
    fn run(&self, report: &mut Report) {
        let output = RefCell::new(O::default());
        let contenders: &mut [Contender] = &mut [
            ("Rust", &mut |_| self.refused(self.rust, &mut output.borrow_mut())),
            ("port", &mut |_| self.refused(self.port, &mut output.borrow_mut())),
        ];
        report.table(self.name, contenders, &[], Some(MOST));
    }

    /// How many inputs are refused. The Rust is not inlined, since the port is not either.
    fn refused(&self, call: Call<I, O>, output: &mut O) -> u32 {
        let call = black_box(call);
        self.inputs.iter().map(|input| u32::from(call(input, output) != 0)).sum()
    }
}

pub fn run(report: &mut Report) {
    report.say(&format!("a figure is of {CALLS} calls, over a fixed list"));
    sums().iter().for_each(|case| case.run(report));
    order().run(report);
    to_thirds().run(report);
    from_thirds().run(report);
}

fn sums() -> [Case<Pair, Numbers>; 3] {
    [
        addition("add, same signs", same_signs),
        addition("add, different signs, the second longer", second_longer),
        Case {
            name: "subtract",
            inputs: pairs(any_signs),
            rust: |[a, b], difference| put(::rate::subtract(a, b), difference),
            port: |[a, b], difference| port::subtract(a, b, difference),
        },
    ]
}

fn addition(name: &'static str, thirds: fn(i64) -> [i64; 2]) -> Case<Pair, Numbers> {
    Case {
        name,
        inputs: pairs(thirds),
        rust: |[a, b], sum| put(::rate::add(a, b), sum),
        port: |[a, b], sum| port::add(a, b, sum),
    }
}

fn order() -> Case<Pair, [u64; 1]> {
    Case {
        name: "compare",
        inputs: pairs(alike),
        rust: |[a, b], order| put(::rate::compare(a, b).map(|o| [(o as i8 + 2) as u64]), order),
        port: |[a, b], order| port::compare(a, b, order),
    }
}

fn to_thirds() -> Case<Numbers, [i64; 1]> {
    Case {
        name: "to thirds",
        inputs: longer().map(rate).collect(),
        rust: |rate, thirds| put(::rate::to_thirds(rate).map(|n| [n]), thirds),
        port: |rate, thirds| port::to_thirds(rate, thirds),
    }
}

fn from_thirds() -> Case<i64, Numbers> {
    Case {
        name: "from thirds",
        inputs: longer().collect(),
        rust: |&thirds, rate| put(::rate::from_thirds(thirds), rate),
        port: |&thirds, rate| port::from_thirds(thirds, rate),
    }
}

/// As the port answers: 0, or the refusal and zeros.
fn put<O: Default>(answer: Option<O>, output: &mut O) -> u32 {
    let number = if answer.is_some() { 0 } else { REFUSED };
    *output = answer.unwrap_or_default();
    number
}

fn pairs(thirds: fn(i64) -> [i64; 2]) -> Vec<Pair> {
    (0..CALLS).map(|i| thirds(i).map(rate)).collect()
}

fn rate(thirds: i64) -> Numbers {
    ::rate::from_thirds(thirds).expect("a rate")
}

/// Plus and minus in turns.
fn sign(i: i64) -> i64 {
    1 - 2 * (i % 2)
}

/// All over what is below half.
fn mixed(i: i64) -> i64 {
    i * 2_654_435_761 % HALF
}

fn same_signs(i: i64) -> [i64; 2] {
    [mixed(2 * i), mixed(2 * i + 1)].map(|thirds| sign(i) * thirds)
}

fn any_signs(i: i64) -> [i64; 2] {
    [sign(i) * mixed(2 * i), sign(i / 2) * mixed(2 * i + 1)]
}

/// With different signs.
fn second_longer(i: i64) -> [i64; 2] {
    let first = mixed(2 * i);
    [first, -(first + 1 + mixed(2 * i + 1))].map(|thirds| sign(i) * thirds)
}

fn alike(i: i64) -> [i64; 2] {
    let first = mixed(2 * i);
    [first, first + APART[i as usize % APART.len()]].map(|thirds| sign(i) * thirds)
}

/// The longer ones alone, of both signs.
fn longer() -> impl Iterator<Item = i64> {
    (0..CALLS).map(|i| second_longer(i)[1])
}

#[cfg(test)]
mod tests {
    use super::*;
    use std::fmt::Debug;

    fn check<I: Debug, O: Debug + Default + PartialEq>(case: &Case<I, O>) {
        assert_eq!(case.inputs.len() as i64, CALLS);
        for input in &case.inputs {
            let (mut rust, mut port) = (O::default(), O::default());
            let numbers = ((case.rust)(input, &mut rust), (case.port)(input, &mut port));
            assert_eq!((numbers, &rust), ((0, 0), &port), "{}: {input:?}", case.name);
        }
    }

    #[test]
    fn both_sides_answer_what_they_are_timed_for() {
        sums().iter().for_each(check);
        check(&order());
        check(&to_thirds());
        check(&from_thirds());
    }

    #[test]
    fn the_lists_are_what_their_names_say() {
        let [same, different, any] = sums().map(|case| case.inputs);
        assert!(same.iter().all(|[a, b]| a[0] == b[0]));
        for [a, b] in &different {
            assert!(a[0] != b[0] && ::rate::add(a, b).is_some_and(|sum| sum[0] == b[0]));
        }
        for signs in [[0, 0], [0, 1], [1, 0], [1, 1]] {
            let with = any.iter().filter(|pair| pair.map(|rate| rate[0]) == signs);
            assert_eq!(with.count() as i64, CALLS / 4);
        }
        let equal = order().inputs.into_iter().filter(|[a, b]| a == b);
        assert_eq!(equal.count() as i64, CALLS / 5);
    }
}
