//! Fixed runs with careful commits, by N4 of the change requests (02): what is told of each is the
//! numbers that its commits answer.

use image::{BANK, RECORD};

use super::pieces::{
    dead_past_size, ending, fill_and, get, held, put, remove, unlimited, value, whole, Named,
    Numbered,
};
use crate::store::lent::call::{Call, Caller};
use crate::store::run::Run;

/// Those that the Rust can be asked.
pub fn list() -> Vec<Named> {
    in_place().into_iter().chain(moves()).chain(over()).chain(limits()).map(|told| told.0).collect()
}

/// Those with a call that the Rust cannot be asked.
pub fn others() -> Vec<Named> {
    sizes().into_iter().chain(order()).map(|told| told.0).collect()
}

/// Commits that leave the bank where it is; the last one has no byte left.
fn in_place() -> Vec<Numbered> {
    let edits = vec![
        put(b"rate", b"1", 1),
        careful(),
        remove(b"rate", 1),
        careful().by(Caller::BARREL),
        value(b"rate", 1),
        whole(1),
    ];
    let full = vec![fill_and(0), careful(), whole(1)];
    vec![
        (("careful-after-edits", Run::new(held(1), edits)), &[0, 0]),
        (("careful-full", Run::new(unlimited(held(1)), full)), &[0]),
    ]
}

/// Commits that move it: dead records are in the total, not in what is live.
fn moves() -> Vec<Numbered> {
    let exact = vec![fill_and(0), fill_and(0), careful(), get(b"rate", 1), value(b"k", 0)];
    let dead = vec![fill_and(0), remove(b"k", 0), put(b"k", b"", 0), careful(), get(b"k", 0)];
    let past_size = vec![careful(), whole(1)];
    vec![
        (("careful-live-as-the-size", Run::new(unlimited(held(1)), exact)), &[0]),
        (("careful-dead-over-the-size", Run::new(unlimited(held(1)), dead)), &[0]),
        (("careful-dead-past-size", Run::new(dead_past_size(), past_size)), &[0]),
    ]
}

/// One byte too many for a move, to each kind of slot.
fn over() -> Vec<Numbered> {
    let on = |next: Vec<u8>, rounds| {
        let calls = [round(), round(), round()][..rounds].concat();
        Run::new([unlimited(held(1)), next].concat(), calls)
    };
    let beside_old = vec![
        fill_and(1),
        careful(),
        Call::commit(BANK),
        careful(),
        remove(b"k", 0),
        careful(),
        Call::commit(BANK),
    ];
    let beside_old = Run::new([unlimited(held(1)), held(0)].concat(), beside_old);
    vec![
        (("careful-over-alone", on(Vec::new(), 2)), &[12, 12, 0, 12, 12, 0]),
        (("careful-over-before-empty", on(vec![0xFF; BANK], 1)), &[12, 12, 0]),
        (("careful-over-before-invalid", on(vec![0; BANK], 1)), &[12, 12, 0]),
        (("careful-over-before-valid", on(held(0), 3)), &[12, 12, 0, 12, 12, 0, 12, 12, 0]),
        (("careful-over-beside-old", beside_old), &[12, 12, 12, 0, 0]),
    ]
}

/// 9 and 10 come before 12.
fn limits() -> Vec<Numbered> {
    let past = |typ| {
        let long = put(b"k", &[0x41; BANK], typ);
        Run::new(held(1), vec![long, careful(), remove(b"k", typ), careful()])
    };
    vec![
        (("careful-system-limit", past(1)), &[9, 0]),
        (("careful-common-limit", past(0)), &[10, 0]),
    ]
}

/// A bank of 200 bytes, all of them usable or 74.
fn sizes() -> Vec<Numbered> {
    let with = |then: &[u8], lens: &[usize]| {
        let calls = lens.iter().flat_map(|&len| [put(b"k", &vec![1; len], 0), careful()]);
        Run::new(unlimited(ending(200, then)), calls.collect())
    };
    // The record has 38 bytes before its value.
    let left = 200 - 74 - 38;
    let wrong = [0xAB; RECORD];
    vec![
        (("careful-size-200", with(&[], &[left, left + 1, left, 0])), &[0, 12, 0, 0]),
        (("careful-usable-74", with(&wrong, &[0, left])), &[0, 0]),
        (("careful-usable-74-over", with(&wrong, &[left + 1, left])), &[12, 0]),
    ]
}

/// 5, 7 and 11 come before 12; in place there is no last generation.
fn order() -> Vec<Numbered> {
    let short = || Call::careful(BANK - 1);
    let last = |generation| {
        let calls = vec![careful(), fill_and(1), careful(), short()];
        Run::new(unlimited(held(generation)), calls)
    };
    let no_active = [vec![0; BANK], held(0)].concat();
    vec![
        (("careful-last-generation", last(u32::MAX)), &[0, 11, 5]),
        (("careful-last-but-one", last(u32::MAX - 1)), &[0, 12, 5]),
        (("careful-without-active", Run::new(no_active, vec![short(), careful()])), &[5, 7]),
    ]
}

/// Refused with 12, again too, and accepted when the value is gone: then it moves.
fn round() -> Vec<Call> {
    vec![
        fill_and(1),
        careful(),
        careful(),
        get(b"k", 0),
        remove(b"k", 0),
        careful(),
        get(b"rate", 1),
    ]
}

fn careful() -> Call {
    Call::careful(BANK)
}

#[cfg(test)]
mod tests {
    use super::super::told::{counted, hold};
    use super::*;
    use crate::store::lent::call::CAREFUL;
    use crate::store::run::counts::{ACCEPTED_PAIRS, ERASES, PAIRS, RUST_CALLED};
    use crate::store::run::wear::Pair;

    #[test]
    fn the_runs_answer_what_is_told() {
        let all = [in_place(), moves(), over(), limits(), sizes(), order()].concat();
        hold(all, &["commits", CAREFUL]);
    }

    /// Between two erase requests the value that was refused is inserted, in every bank once: no
    /// fewer bytes are possible. By 01's bound nothing is asked, since L is over S.
    #[test]
    fn a_12_between_two_requests_meets_n4s_bound_exactly() {
        for (name, banks) in [("careful-over-alone", 1), ("careful-over-before-valid", 2)] {
            let (run, counts) = counted(list(), name);
            let inserted = banks * (65_536 - 74 + 1);
            assert_eq!(counts.fewest, Some(Pair { inserted, banks, size: 65_536, most: 74 }));
            let of = |name| counts.others.of(name);
            assert_eq!((of(PAIRS), of(ACCEPTED_PAIRS), of(ERASES)), (0, 1, banks + 1));
            assert_eq!(of(RUST_CALLED), run.calls.len() as u64);
        }
    }
}
