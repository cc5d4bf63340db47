//! Fixed runs with commits of both callers, by N7 of the change requests (02): what is told of each
//! is the tallies after it, the clock's and the barrel's.

use image::BANK;

use super::pieces::{fill_and, get, held, put, remove, sized, unlimited, Named};
use crate::store::book::tally::STOP;
use crate::store::lent::call::{Call, Caller};
use crate::store::lent::state::Tallies;
use crate::store::run::Run;

/// A run, and both tallies after it.
type Tallied = (Named, [u32; 2]);

const CLOCK: Caller = Caller::CLOCK;
const BARREL: Caller = Caller::BARREL;

/// Those that the replay has.
pub fn list() -> Vec<Named> {
    told().into_iter().map(|told| told.0).collect()
}

/// Those on a state that someone made, or with another number for the barrel.
pub fn others() -> Vec<Named> {
    stops().into_iter().chain([numbers()]).map(|told| told.0).collect()
}

fn told() -> Vec<Tallied> {
    let turns = [CLOCK, BARREL, CLOCK, BARREL, BARREL];
    vec![
        (("callers-in-turn", Run::new(two(), rounds(&turns))), [1, 3]),
        (("callers-one-bank", Run::new(small(1), rounds(&turns))), [1, 3]),
        (("callers-before-empty", Run::new(before_empty(), rounds(&turns))), [1, 2]),
        (("callers-over-after-the-move", over(Call::commit)), [1, 2]),
        (("callers-over-carefully", over(Call::careful)), [1, 0]),
    ]
}

/// Each tally up to its stop and past it, with the other's and the total at theirs or below.
fn stops() -> Vec<Tallied> {
    let on = |tallies: [u32; 2], turns: &[Caller]| {
        let [clock, barrel] = tallies;
        // The first commit of each run is in place.
        let calls = rounds(&[&[CLOCK], turns].concat());
        Run { tallies: Tallies { clock, barrel }, ..Run::new(two(), calls) }
    };
    let thrice = |caller| [caller; 3];
    let both = [CLOCK, BARREL, CLOCK, BARREL];
    vec![
        (("callers-clock-stops", on([STOP - 2, 0], &thrice(CLOCK))), [STOP, 0]),
        (("callers-barrel-stops", on([0, STOP - 2], &thrice(BARREL))), [0, STOP]),
        (("callers-both-stop", on([STOP - 1; 2], &both)), [STOP; 2]),
        (("callers-both-stopped", on([STOP; 2], &both)), [STOP; 2]),
        (("callers-barrel-stopped", on([0, STOP], &both)), [2, STOP]),
        (("callers-total-stops", on([STOP / 2; 2], &both)), [STOP / 2 + 2; 2]),
    ]
}

/// Numbers that mean the barrel, and the clock's.
fn numbers() -> Tallied {
    let turns = [1, 2, 256, u32::MAX, 0].map(Caller);
    (("callers-numbers", Run::new(two(), rounds(&turns))), [1, 3])
}

/// A bank of 200 bytes.
fn small(generation: u32) -> Vec<u8> {
    sized(200, generation)
}

fn two() -> Vec<u8> {
    [small(1), small(0)].concat()
}

/// Of three banks the second is Empty: the move to it asks for no erase.
fn before_empty() -> Vec<u8> {
    [small(1), vec![0xFF; BANK], small(0)].concat()
}

/// An insert and a commit for each, old and careful in turn. There is room for one value: all but the
/// first move the bank.
fn rounds(callers: &[Caller]) -> Vec<Call> {
    let commits = [Call::commit(BANK), Call::careful(BANK)].into_iter().cycle();
    let each = callers.iter().zip(commits).zip(0..);
    each.flat_map(|((caller, commit), i)| [put(b"k", &[i; 60], 0), commit.by(*caller)]).collect()
}

/// The barrel's commits are refused with 12, which counts where they are old ones; then the clock's
/// is accepted.
fn over(commit: fn(usize) -> Call) -> Run {
    let by = |caller| commit(BANK).by(caller);
    let calls =
        vec![fill_and(1), by(BARREL), by(BARREL), get(b"rate", 1), remove(b"k", 0), by(CLOCK)];
    Run::new([unlimited(held(1)), held(0)].concat(), calls)
}

#[cfg(test)]
mod tests {
    use super::super::told::counted;
    use super::*;
    use crate::store::run::counts::{
        BY_BOTH, BY_CALLER, ERASES, PAST_STOP, PAST_TOTAL, RUST_CALLED,
    };

    #[test]
    fn the_tallies_are_those_told() {
        for ((name, run), told) in told().into_iter().chain(stops()).chain([numbers()]) {
            let mut book = run.opened().unwrap();
            book.tallies = run.tallies;
            run.calls.iter().for_each(|call| drop(book.answer(call)));
            assert_eq!([book.tallies.clock, book.tallies.barrel], told, "{name}");
        }
    }

    #[test]
    fn the_rust_is_asked_every_call_and_erases_as_often() {
        for ((name, _), [clock, barrel]) in told() {
            let (run, counts) = counted(list(), name);
            let of = |name| counts.others.of(name);
            assert_eq!(of(RUST_CALLED), run.calls.len() as u64, "{name}");
            assert_eq!(BY_CALLER.map(of), [clock, barrel].map(u64::from), "{name}");
            assert_eq!(of(ERASES), u64::from(clock + barrel), "{name}");
            assert_eq!(of(BY_BOTH), u64::from(clock > 0 && barrel > 0), "{name}");
        }
    }

    #[test]
    fn requests_past_a_stop_are_counted() {
        for (name, past, past_total) in [
            ("callers-clock-stops", 1, 1),
            ("callers-barrel-stops", 1, 1),
            ("callers-both-stop", 2, 4),
            ("callers-both-stopped", 4, 4),
            ("callers-barrel-stopped", 2, 4),
            ("callers-total-stops", 0, 3),
        ] {
            let (_, counts) = counted(others(), name);
            let of = |name| counts.others.of(name);
            assert_eq!((of(PAST_STOP), of(PAST_TOTAL)), (past, past_total), "{name}");
        }
    }
}
