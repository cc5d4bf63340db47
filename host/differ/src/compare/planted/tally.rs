//! Faults of the tallies.

use super::faults::{caller, in_place, moved, opened, state};
use crate::store::book::sound;
use crate::store::book::tally::STOP;
use crate::store::lent::call::{Answer, Caller, Manner, What};
use crate::store::lent::port::Done;
use crate::store::lent::state::{State, Tallies, STATE};

/// As they were before the call.
fn before(done: &Done) -> Tallies {
    state(&done.before.0).tallies
}

fn put(done: &mut Done, tallies: Tallies) {
    let told = State { tallies, ..state(done.state) };
    done.state[..STATE].copy_from_slice(&told.bytes());
}

/// One more for this caller than the call left.
pub fn count(done: &mut Done, caller: Caller) {
    let mut tallies = state(done.state).tallies;
    tallies.count(caller);
    put(done, tallies);
}

/// Who commits, of a commit that asks for an erase.
fn erases(done: &Done) -> Option<Caller> {
    done.call?.erases(&done.answer)
}

pub fn counts_twice(done: &mut Done) {
    erases(done).into_iter().for_each(|caller| count(done, caller));
}

/// The erase request counts for another.
fn recount(done: &mut Done, other: Caller) {
    put(done, before(done));
    count(done, other);
}

pub fn counts_for_the_other(done: &mut Done) {
    match erases(done) {
        Some(Caller::CLOCK) => recount(done, Caller::BARREL),
        Some(_) => recount(done, Caller::CLOCK),
        None => {}
    }
}

pub fn takes_others_as_the_clock(done: &mut Done) {
    if erases(done).is_some_and(|Caller(number)| number > 1) {
        recount(done, Caller::CLOCK);
    }
}

pub fn counts_in_place(done: &mut Done) {
    if in_place(done).is_some() {
        count(done, caller(done));
    }
}

pub fn counts_every_move(done: &mut Done) {
    if moved(done) && erases(done).is_none() {
        count(done, caller(done));
    }
}

/// Of an old commit; a careful one has counted nothing.
pub fn counts_no_12(done: &mut Done) {
    if matches!(done.answer, Answer::Commit(12, ..)) {
        put(done, before(done));
    }
}

pub fn counts_a_barrel_insert(done: &mut Done) {
    let what = done.call.map(|call| &call.what);
    if matches!(what, Some(What::Insert(Manner::Barrel, _))) && done.answer == Answer::Number(0) {
        count(done, Caller::BARREL);
    }
}

/// An opening leaves the barrel's.
pub fn opens_with_a_tally(done: &mut Done) {
    if opened(done, 0) {
        put(done, Tallies { clock: 0, ..before(done) });
    }
}

pub fn wraps_a_tally(done: &mut Done) {
    let mut tallies = before(done);
    if let Some(own) = erases(done).map(|caller| tallies.of(caller)).filter(|own| **own == STOP) {
        *own = 0;
        put(done, tallies);
    }
}

/// A tally stops where the total does.
pub fn stops_with_the_total(done: &mut Done) {
    let [_, _, total] = before(done).told();
    if erases(done).is_some() && total == STOP.into() {
        put(done, before(done));
    }
}

/// Another total of the clock's and the barrel's.
fn retotal(done: &mut Done, of: fn(u64, u64) -> u64) {
    if let Answer::Tally(0, [clock, barrel, total]) = &mut done.answer {
        *total = of(*clock, *barrel);
    }
}

pub fn wraps_the_total(done: &mut Done) {
    retotal(done, |clock, barrel| (clock as u32).wrapping_add(barrel as u32).into());
}

pub fn sums_past_the_stop(done: &mut Done) {
    retotal(done, |clock, barrel| clock + barrel);
}

pub fn writes_no_zeros_with_6(done: &mut Done) {
    if let Answer::Tally(6, tally) = &mut done.answer {
        *tally = [u64::MAX; 3];
    }
}

/// As every other call does.
pub fn asks_for_a_sound_state(done: &mut Done) {
    if matches!(done.answer, Answer::Tally(0, _)) && sound::book(done.state, done.work).is_none() {
        done.answer = Answer::Tally(6, [0; 3]);
    }
}

pub fn tells_of_any_kinds(done: &mut Done) {
    if let (Answer::Tally(6, _), Some(told)) = (&done.answer, State::read(done.state)) {
        done.answer = Answer::Tally(0, told.tallies.told());
    }
}
