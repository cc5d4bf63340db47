//! The inputs of docs/DIFFERENCES.md, 'Store' and 'Commit and whole image': what the Rust does where
//! it may not be asked.

use std::env;
use std::process::Command;

use image::{put_number, BANK};

use super::fuzz::{self, Case};
use super::lent::call::{Call, What, CAREFUL};
use super::lent::state::{Tallies, STATE};
use super::lent::{Port, Standing};
use super::run::counts::{Counts, ERASES, MOVES, RUST_CALLED, RUST_OPENED};
use super::run::{compare, Run};
use super::rust;

/// What is counted of a run on which the port does as 01 says.
fn judged(image: &[u8], calls: Vec<Call>) -> Counts {
    compare(&Run::new(image.to_vec(), calls), Port::default()).unwrap()
}

fn insert(len: usize) -> Call {
    Call::insert(b"", &vec![9; len], 0)
}

fn barrel(len: usize) -> Call {
    Call::barrel(b"", &vec![9; len], 0)
}

/// A bank of 0xFF but for signature, size 24, version and generation.
fn plain(generation: u32) -> Vec<u8> {
    let mut bank = vec![0xFF; BANK];
    bank[..8].copy_from_slice(b"3VVN\x18\0\0\0");
    put_number(&mut bank, 8, generation);
    bank[14] = 1;
    bank
}

fn rust_answers(image: &[u8], call: &Call) -> Result<String, String> {
    let mut rust = rust::Rust::open(image)?.ok_or("refused")?;
    rust.answer(call).map(|answer| answer.to_string())
}

#[test]
fn the_rust_panics_where_the_active_slot_is_not_valid() {
    let image = [vec![0xFF; BANK], plain(0)].concat();
    let panics = Err("it panics".to_string());
    let [lookup, remove] = [What::Lookup, What::Remove].map(|what| Call::new(what, b"", 1));
    let edits = [remove, insert(0), barrel(0), barrel(513)];
    for call in edits.into_iter().chain([lookup, Call::figures(), commit(), careful()]) {
        assert_eq!(rust_answers(&image, &call), panics);
        assert_eq!(judged(&image, vec![call]).numbers.of(7), 1);
    }
    let whole = judged(&image, vec![Call::whole(2 * BANK)]);
    assert_eq!(whole.others.of(RUST_CALLED), 1);
}

#[test]
fn the_rust_opens_more_than_16_banks() {
    let mut image = plain(1);
    image.resize(17 * BANK, 0xFF);
    let none = "0, found 0, place 0, length 0".to_string();
    let lookup = Call::new(What::Lookup, b"", 1);
    assert_eq!(rust_answers(&image, &lookup), Ok(none));
    let counts = judged(&image, Vec::new());
    assert_eq!((counts.openings.of(2), counts.others.of(RUST_OPENED)), (1, 0));
}

#[test]
fn the_rust_inserts_past_the_work_area() {
    let image = plain(1);
    assert_eq!(rust_answers(&image, &insert(131_012)), Ok("0".to_string()));
    let counts = |len| judged(&image, vec![insert(len)]);
    let (over, full) = (counts(131_012), counts(131_011));
    assert_eq!((over.numbers.of(8), over.others.of(RUST_CALLED)), (1, 0));
    assert_eq!((full.numbers.of(0), full.others.of(RUST_CALLED)), (1, 1));
}

#[test]
fn the_rust_has_no_ceiling_for_barrels() {
    let image = plain(1);
    let mut rust = rust::Rust::open(&image).unwrap().unwrap();
    assert_eq!(rust.answer(&barrel(513)).unwrap().to_string(), "0");
    assert_eq!(rust.book(Tallies::default()).unwrap().state().entries[0].total, 574);
    let counts = |len| judged(&image, vec![barrel(len), Call::figures()]);
    let (over, full) = (counts(513), counts(512));
    assert_eq!((over.numbers.of(15), over.others.of(RUST_CALLED)), (1, 1));
    assert_eq!((full.numbers.of(0), full.others.of(RUST_CALLED)), (2, 2));
}

#[test]
fn what_is_lent_is_checked() {
    let mut run = Run::new(plain(1), Vec::new());
    run.spare = -1;
    assert_eq!(compare(&run, Port::default()).unwrap().openings.of(3), 1);
    let zeros = Case { state: vec![0; STATE], work: vec![0xFF; 131_072], call: insert(0) };
    let seen = fuzz::compare(&zeros, Port::default(), Standing::Guarded(0));
    assert_eq!(seen.map(|seen| (seen.sound, seen.tallied)), Ok((false, true)));
}

#[test]
fn the_rust_has_one_word_for_two_refusals() {
    for (image, number) in [(Vec::new(), 1), (vec![0xFF; BANK], 4)] {
        let counts = judged(&image, Vec::new());
        assert_eq!((counts.openings.of(number), counts.others.of(RUST_OPENED)), (1, 1));
    }
}

fn commit() -> Call {
    Call::commit(BANK)
}

fn careful() -> Call {
    Call::careful(BANK)
}

fn remove() -> Call {
    Call::new(What::Remove, b"", 0)
}

/// What the Rust answers to the last of the calls.
fn rust_says(image: &[u8], calls: &[Call]) -> String {
    let mut rust = rust::Rust::open(image).unwrap().unwrap();
    let answers = calls.iter().map(|call| rust.answer(call).unwrap());
    answers.last().unwrap().to_string()
}

#[test]
fn the_rust_moves_past_the_last_generation() {
    let image = plain(u32::MAX);
    for last in [commit(), careful()] {
        let calls = vec![insert(0), remove(), last];
        let rust = rust_says(&image, &calls);
        let written =
            "0, erase 1 at 0, write at 0, length 24, output 3356564e1800000000000000ffff01";
        assert!(rust.starts_with(written), "{rust}");
        let counts = judged(&image, calls);
        assert_eq!((counts.numbers.of(11), counts.others.of(RUST_CALLED)), (1, 2));
    }
}

/// No limit, and as much room as there can be.
fn unlimited() -> Vec<u8> {
    let mut image = plain(1);
    put_number(&mut image, 4, BANK as u32);
    image
}

#[test]
fn the_rust_moves_before_it_refuses() {
    // 24 bytes of header, 37 of the record, and one too many.
    let long = insert(BANK - 24 - 37 + 1);
    let rust = rust_says(&unlimited(), &[long.clone(), commit()]);
    assert!(rust.starts_with("12, erase 1 at 0, write at 0, length 0"), "{rust}");
    let told = |calls: &[Call]| {
        let counts = judged(&unlimited(), calls.to_vec());
        let of = |name| counts.others.of(name);
        (counts.numbers.of(12), of(ERASES), of(MOVES), of(RUST_CALLED))
    };
    assert_eq!(told(&[long.clone(), commit()]), (1, 1, 1, 2));
    assert_eq!(told(&[long, careful(), careful()]), (2, 0, 0, 3));
    assert_eq!(told(&[insert(BANK - 24 - 37), careful()]), (0, 0, 0, 2));
}

#[test]
fn after_a_careful_12_the_rust_is_asked_again() {
    let counts = judged(&plain(1), vec![insert(0), careful(), remove(), careful()]);
    let careful = counts.of_kind(CAREFUL);
    assert_eq!((careful.of(12), careful.of(0)), (1, 1));
    assert_eq!(counts.others.of(RUST_CALLED), 3);
}

#[test]
fn the_rust_has_one_word_for_three_refusals() {
    // No system record is allowed, no common one, and none at all after the move.
    let limited = |at: usize| {
        let mut image = unlimited();
        put_number(&mut image, at, 0);
        image
    };
    let system = Call::insert(b"", b"", 1);
    for (image, put, number) in
        [(limited(16), system, 9), (limited(20), insert(0), 10), (unlimited(), insert(BANK), 12)]
    {
        let counts = judged(&image, vec![put, careful(), commit()]);
        assert_eq!((counts.numbers.of(number), counts.others.of(RUST_CALLED)), (2, 3));
    }
}

#[test]
fn an_output_that_is_too_short_is_refused() {
    let calls = [Call::commit, Call::careful, Call::whole].map(|call| call(BANK - 1));
    let counts = judged(&plain(1), calls.to_vec());
    assert_eq!((counts.numbers.of(5), counts.others.of(RUST_CALLED)), (3, 0));
}

/// Set for a process that may not have much memory.
const LITTLE: &str = "DIFFER_LITTLE_MEMORY";

/// The calls of which the Rust's last never ends padding.
fn padding(last: Call) -> Vec<Call> {
    vec![insert(0), last]
}

/// Runs `test` of this program alone with 1 GB of memory, and answers what it says when it dies.
fn with_little_memory(test: &str) -> String {
    let limited = "ulimit -v 1000000 && exec \"$0\" --exact --nocapture \"$1\"";
    let out = Command::new("sh")
        .args(["-c", limited])
        .arg(env::current_exe().unwrap())
        .arg(format!("store::difference_tests::{test}"))
        .env(LITTLE, "1")
        .output()
        .unwrap();
    assert!(!out.status.success());
    String::from_utf8_lossy(&out.stderr).into_owned()
}

#[test]
fn a_commit_of_the_rust_never_ends() {
    if env::var_os(LITTLE).is_some() {
        rust_says(&plain(1), &padding(commit()));
    }
}

#[test]
fn a_whole_image_of_the_rust_never_ends() {
    if env::var_os(LITTLE).is_some() {
        rust_says(&plain(1), &padding(Call::whole(BANK)));
    }
}

#[test]
fn the_rust_pads_until_memory_ends() {
    for (test, last, number) in [
        ("a_commit_of_the_rust_never_ends", commit(), 12),
        ("a_whole_image_of_the_rust_never_ends", Call::whole(BANK), 13),
    ] {
        let said = with_little_memory(test);
        assert!(said.contains("memory allocation of"), "{said}");
        let counts = judged(&plain(1), padding(last));
        assert_eq!((counts.numbers.of(number), counts.others.of(RUST_CALLED)), (1, 1));
    }
}
