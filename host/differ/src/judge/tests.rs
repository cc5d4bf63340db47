//! What the judge finds, tells and keeps.

use std::env;
use std::fs;
use std::process;

use super::*;
use proptest::collection::vec;
use proptest::prelude::any;
use proptest::strategy::{Strategy, ValueTree};

/// Sums of bytes, of which one side adds one where a byte is 40 or more behind two others.
struct Sums {
    wrong: bool,
}

impl Comparison for Sums {
    type Input = Vec<u8>;
    type Counts = Numbers;
    const NAME: &'static str = "sums";

    fn parts(&self, mode: Mode) -> Vec<Part<Vec<u8>>> {
        let strategy = vec(any::<u8>(), 0..20);
        vec![
            Part::each("three", [vec![], vec![1], vec![1, 2]].into_iter()),
            Part::drawn("random", mode.pick(500, 0, 0), strategy),
        ]
    }

    fn compare(&self, input: &Vec<u8>) -> Result<Numbers, String> {
        let more = self.wrong && input.iter().skip(2).any(|&b| b >= 40);
        match more {
            true => Err("one more".to_string()),
            false => Ok(Numbers::of(&[("sums", 1), ("empty", u64::from(input.is_empty()))])),
        }
    }
}

#[test]
fn inputs_are_counted() {
    let mut judge = Judge::new(Mode::Short, 1);
    judge.hold(&Sums { wrong: false }).unwrap();
    assert_eq!(judge.inputs, 503);
    judge.only = Some("others".to_string());
    judge.hold(&Sums { wrong: true }).unwrap();
    assert_eq!(judge.inputs, 503);
    for (mode, inputs) in [(Mode::Long, 3), (Mode::Memcheck, 0)] {
        let mut judge = Judge::new(mode, 1);
        judge.hold(&Sums { wrong: true }).unwrap();
        assert_eq!(judge.inputs, inputs);
    }
    let mut sum = Numbers::default();
    sum += Numbers::of(&[("sums", 1), ("empty", 1)]);
    sum += Numbers::of(&[("sums", 1), ("empty", 0)]);
    assert_eq!((sum.get("empty"), sum.to_string()), (1, "2 sums, 1 empty".to_string()));
}

#[test]
fn a_difference_is_found_made_small_and_told() {
    let found = Judge::new(Mode::Short, 1).hold(&Sums { wrong: true });
    let told = "DIFFERENCE in sums: random\n[\n    0,\n    0,\n    40,\n]\none more";
    assert_eq!(found, Err(told.to_string()));
}

/// The first three numbers that a part draws.
fn drawn(seed: u64, place: &str) -> Vec<u64> {
    let mut runner = Judge::new(Mode::Short, seed).runner(place, 3);
    let mut draw = || any::<u64>().new_tree(&mut runner).unwrap().current();
    (0..3).map(|_| draw()).collect()
}

#[test]
fn a_seed_repeats_what_is_drawn() {
    assert_eq!(drawn(1, "a"), drawn(1, "a"));
    assert_ne!(drawn(1, "a"), drawn(2, "a"));
    assert_ne!(drawn(1, "a"), drawn(1, "b"));
}

#[test]
fn a_failure_is_kept_and_tried_first() {
    let folder = env::temp_dir().join(format!("differ-kept-{}", process::id()));
    let judge = |seed| Judge {
        kept: Some(folder.to_string_lossy().into_owned()),
        ..Judge::new(Mode::Short, seed)
    };
    judge(1).hold(&Sums { wrong: true }).unwrap_err();
    let file = folder.join("sums--random.txt");
    let kept = fs::read_to_string(&file).unwrap();
    assert!(kept.contains("cc ") && kept.contains("# shrinks to [0, 0, 40]"), "{kept}");
    // With another seed and no input of its own, the kept one still fails.
    let mut first = judge(2);
    first.only_kept = true;
    let again = first.hold(&Sums { wrong: true });
    let mended = first.hold(&Sums { wrong: false });
    fs::remove_dir_all(&folder).unwrap();
    assert!(again.unwrap_err().contains("\n    40,\n"));
    assert_eq!((mended, first.inputs), (Ok(()), 0));
}
