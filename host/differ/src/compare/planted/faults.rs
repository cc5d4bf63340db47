//! Faults of the store's calls.

use std::cell::RefCell;

use image::{number, put_number, BANK, HEADER, RECORD};

use crate::store::book::{LIVE, PART};
use crate::store::lent::call::{Answer, Asked, Caller, What, NO_REQUEST, ROOM};
use crate::store::lent::port::Done;
use crate::store::lent::state::{total_at, usable_at, State, EMPTY, ENTRIES, STATE, VALID};

pub fn state(bytes: &[u8]) -> State {
    State::read(bytes).unwrap_or_default()
}

/// The call is the opening and has this answer.
pub fn opened(done: &Done, number: u32) -> bool {
    done.call.is_none() && done.answer == Answer::Number(number)
}

/// It is a commit that moved the bank.
pub fn moved(done: &Done) -> bool {
    matches!(done.answer, Answer::Commit(0, ..)) && done.before.0 != done.state
}

/// It is a commit in place, and this is its output.
pub fn in_place<'a>(done: &'a mut Done) -> Option<&'a mut Vec<u8>> {
    match &mut done.answer {
        Answer::Commit(0, _, out) if done.before.0 == done.state => Some(out),
        _ => None,
    }
}

pub fn asked<'a>(done: &'a mut Done) -> &'a mut Asked {
    match &mut done.answer {
        Answer::Commit(_, asked, _) => asked,
        other => panic!("no commit: {other}"),
    }
}

/// Who commits.
pub fn caller(done: &Done) -> Caller {
    match done.call.map(|call| &call.what) {
        Some(What::Commit(_, caller, _)) => *caller,
        other => panic!("no commit: {other:?}"),
    }
}

/// The active bank's entry, and its part.
fn active<'a>(done: &'a mut Done) -> (usize, &'a mut [u8]) {
    let active = state(done.state).active as usize;
    (active, &mut done.work[active * PART..(active + 1) * PART])
}

/// State and work area as they were, and this number for an answer.
pub fn refuse(done: &mut Done, number: u32) {
    done.state.copy_from_slice(&done.before.0);
    done.work.copy_from_slice(&done.before.1);
    done.answer = done.call.expect("a call").refused(number);
}

pub fn the_first_wins(done: &mut Done) {
    let mut told = state(done.state);
    let first = told.entries.iter().position(|e| e.kind == VALID);
    let first = first.unwrap_or(0);
    if opened(done, 0) && told.active == 0 && number(done.work, first * PART + 8) == 0 {
        told.active = first as u32;
        done.state[..STATE].copy_from_slice(&told.bytes());
    }
}

pub fn turns_all_down(done: &mut Done) {
    if opened(done, 0) {
        done.answer = Answer::Number(4);
    }
}

pub fn writes_and_refuses(done: &mut Done) {
    if opened(done, 4) {
        done.work[0] = 0xFF;
    }
}

pub fn kills_one(done: &mut Done) {
    if matches!(done.call.map(|call| &call.what), Some(What::Remove)) {
        let changed = (0..done.work.len()).filter(|&i| done.work[i] != done.before.1[i]);
        let later: Vec<usize> = changed.skip(1).collect();
        later.iter().for_each(|&i| done.work[i] = LIVE);
    }
}

pub fn full_early(done: &mut Done) {
    let inserted = matches!(done.call.map(|call| &call.what), Some(What::Insert(..)));
    let told = state(done.state);
    let entry = told.entries.get(told.active as usize);
    if inserted && entry.is_some_and(|entry| entry.total as usize == PART) {
        refuse(done, 8);
    }
}

pub fn says_none(done: &mut Done) {
    if let Answer::Lookup(0, found) = &mut done.answer {
        *found = [0; 3];
    }
}

pub fn finds_nothing(done: &mut Done) {
    if let Answer::Lookup(0, [found, ..]) = &mut done.answer {
        *found = 1;
    }
}

/// A whole image takes every bank for 65,536 bytes.
pub fn whole_banks(done: &mut Done) {
    if let Answer::Whole(0, length, _) = &mut done.answer {
        *length = (*length + BANK as u64 - 1) / BANK as u64 * BANK as u64;
    }
}

pub fn asks_for_nothing(done: &mut Done) {
    if let Answer::Commit(0, asked, out) = &mut done.answer {
        *asked = NO_REQUEST;
        out.fill(ROOM);
    }
}

pub fn writes_the_old_bank(done: &mut Done) {
    if moved(done) {
        let at = state(&done.before.0).active as usize * PART;
        if let Answer::Commit(_, [.., length], out) = &mut done.answer {
            let length = *length as usize;
            out[..length].copy_from_slice(&done.before.1[at..at + length]);
        }
    }
}

pub fn erases_the_empty(done: &mut Done) {
    let next = state(done.state).active as usize;
    if moved(done) && state(&done.before.0).entries[next].kind == EMPTY {
        let asked = asked(done);
        (asked[0], asked[1]) = (1, (next * BANK) as u64);
    }
}

/// The state of a dead first record is another in the output.
pub fn writes_the_dead_wrong(done: &mut Done) {
    if let Some(out) = in_place(done).filter(|out| out[HEADER + 2] == 0x7C) {
        out[HEADER + 2] = 0xFF;
    }
}

/// A dead first record goes from the output, from the part and from the total.
pub fn drops_the_dead(done: &mut Done) {
    if let Some(out) = in_place(done).filter(|out| out[HEADER + 2] == 0x7C) {
        let [name, value] = [8, 12].map(|at| number(out, HEADER + at) as usize);
        let len = RECORD + name + value;
        out.copy_within(HEADER + len.., HEADER);
        let (i, part) = active(done);
        part.copy_within(HEADER + len.., HEADER);
        let total = number(done.state, total_at(i));
        put_number(done.state, total_at(i), total - len as u32);
    }
}

/// The limit of system records counts all records.
pub fn counts_the_dead(done: &mut Done) {
    if in_place(done).is_some() {
        let (i, part) = active(done);
        let limit = number(part, 16);
        if state(done.state).entries[i].total - HEADER as u32 > limit {
            refuse(done, 9);
        }
    }
}

pub fn keeps_the_generation(done: &mut Done) {
    if moved(done) {
        let (_, part) = active(done);
        let generation = number(part, 8) - 1;
        put_number(part, 8, generation);
        let out = done.answer.room_mut().expect("an output");
        put_number(out, 8, generation);
    }
}

pub fn keeps_the_state(done: &mut Done) {
    if moved(done) {
        done.state.copy_from_slice(&done.before.0);
    }
}

pub fn keeps_what_is_usable(done: &mut Done) {
    if moved(done) {
        let (was, is) = (state(&done.before.0), state(done.state));
        let usable = was.entries[was.active as usize].usable;
        put_number(done.state, usable_at(is.active as usize), usable);
    }
}

pub fn clears_the_old_slot(done: &mut Done) {
    let (was, mut is) = (state(&done.before.0).active, state(done.state));
    if moved(done) && was != is.active {
        is.entries[was as usize] = Default::default();
        done.state[..STATE].copy_from_slice(&is.bytes());
        done.work[was as usize * PART..][..PART].fill(0xFF);
    }
}

pub fn writes_behind_the_length(done: &mut Done) {
    if let Answer::Commit(0, [.., length], out) = &mut done.answer {
        out.get_mut(*length as usize).into_iter().for_each(|byte| *byte = 0xFF);
    }
}

pub fn stays_with_12(done: &mut Done) {
    if matches!(done.answer, Answer::Commit(12, ..)) {
        refuse(done, 12);
    }
}

pub fn forgets_with_12(done: &mut Done) {
    if let Answer::Commit(12, asked, _) = &mut done.answer {
        *asked = NO_REQUEST;
    }
}

pub fn wraps_with_11(done: &mut Done) {
    if let Answer::Commit(number @ 11, ..) = &mut done.answer {
        *number = 0;
    }
}

/// The check of a lookup skips those from n on.
pub fn skips_entries(done: &mut Done) {
    let (mut told, mut found) = (state(done.state), [0; 3]);
    let n = (told.n as usize).min(ENTRIES);
    told.entries[n..].fill(Default::default());
    if let (Answer::Lookup(6, _), Some(call)) = (&done.answer, done.call) {
        let (state, work) = (told.bytes(), &done.work);
        let number = feqyondil::lent::lookup(&state, work, &call.key, call.typ, &mut found);
        done.answer = Answer::Lookup(number, found);
    }
}

thread_local! {
    /// The output of the first move.
    static FIRST: RefCell<Option<Vec<u8>>> = const { RefCell::new(None) };
}

/// Moves rightly once, and writes those bytes at every later move.
pub fn repeats_a_move(done: &mut Done) {
    if moved(done) {
        let out = done.answer.room_mut().expect("an output");
        let first = FIRST.with(|first| first.borrow_mut().get_or_insert(out.clone()).clone());
        out.copy_from_slice(&first);
    }
}

/// In 01's bench case what is usable ends one insert early: a second commit moves.
pub fn erases_early(done: &mut Done) {
    let active = state(done.state).active as usize;
    let total = state(done.state).entries[active].total as usize;
    if total + 169 > BANK && in_place(done).is_some() {
        put_number(done.state, usable_at(active), HEADER as u32);
        let Caller(caller) = caller(done);
        if let Answer::Commit(number, asked, out) = &mut done.answer {
            *number = feqyondil::lent::commit(done.state, done.work, out, caller, asked);
        }
    }
}
