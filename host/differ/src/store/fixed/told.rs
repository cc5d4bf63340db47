//! What is told of fixed runs, held against what they do.

use super::pieces::{Named, Numbered};
use crate::store::lent::call::Answer;
use crate::store::lent::Port;
use crate::store::run::counts::Counts;
use crate::store::run::{compare, Run};

/// The calls of these kinds answer what is told of each run.
pub fn hold(runs: Vec<Numbered>, kinds: &[&str]) {
    for ((name, run), told) in runs {
        let mut book = run.opened().unwrap();
        let answers = run.calls.iter().map(|call| (call.what.name(), book.answer(call)));
        let answers = answers.filter(|(kind, _)| kinds.contains(kind));
        let numbers = answers.map(|(_, answer)| match answer {
            Answer::Number(number) | Answer::Commit(number, ..) => number,
            other => panic!("{name}: {other}"),
        });
        assert_eq!(numbers.collect::<Vec<_>>(), told, "{name}");
    }
}

/// The run of this name, and what is counted of it.
pub fn counted(list: Vec<Named>, name: &str) -> (Run, Counts) {
    let (_, run) = list.into_iter().find(|(found, _)| *found == name).unwrap();
    let counts = compare(&run, Port::default()).unwrap();
    (run, counts)
}
