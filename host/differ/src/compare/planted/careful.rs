//! Faults of the careful commit.

use image::BANK;

use super::faults::{asked, caller, moved, refuse, state};
use super::tally::count;
use crate::store::book::{sound, Bank};
use crate::store::lent::call::{Answer, Caller, Way, What};
use crate::store::lent::port::Done;

/// It is a careful commit with this number.
fn answers(done: &Done, number: u32) -> bool {
    let careful = matches!(done.call.map(|call| &call.what), Some(What::Commit(Way::Careful, ..)));
    careful && matches!(done.answer, Answer::Commit(answered, ..) if answered == number)
}

/// By how many bytes the active bank was over its size.
fn over(done: &Done, figure: fn(&Bank) -> usize) -> isize {
    let book = sound::book(&done.before.0, &done.before.1).expect("a commit is refused by 6");
    let bank = book.active_bank().expect("a commit is refused by 7");
    figure(bank) as isize - bank.header.size as isize
}

fn renumber(done: &mut Done, number: u32) {
    if let Answer::Commit(answered, ..) = &mut done.answer {
        *answered = number;
    }
}

pub fn counts_with_12(done: &mut Done) {
    if answers(done, 12) {
        count(done, caller(done));
    }
}

pub fn asks_with_12(done: &mut Done) {
    if answers(done, 12) {
        let told = state(done.state);
        let next = (told.active + 1) % told.n;
        *asked(done) = [1, u64::from(next) * BANK as u64, 0, 0];
    }
}

pub fn writes_with_12(done: &mut Done) {
    if answers(done, 12) {
        done.answer.room_mut().expect("an output")[0] = 0xFF;
    }
}

/// What is live is looked at when the bank has moved.
pub fn moves_before_12(done: &mut Done) {
    if answers(done, 12) {
        let Caller(caller) = caller(done);
        feqyondil::lent::commit(done.state, done.work, &mut [0; BANK], caller, &mut [0; 4]);
    }
}

/// The same, and the state is put back.
pub fn leaves_the_move_in_the_work_area(done: &mut Done) {
    moves_before_12(done);
    if answers(done, 12) {
        done.state.copy_from_slice(&done.before.0);
    }
}

pub fn takes_the_total(done: &mut Done) {
    if answers(done, 0) && moved(done) && over(done, Bank::total) > 0 {
        refuse(done, 12);
    }
}

pub fn is_a_byte_early(done: &mut Done) {
    if answers(done, 0) && moved(done) && over(done, Bank::live) == 0 {
        refuse(done, 12);
    }
}

pub fn is_a_byte_late(done: &mut Done) {
    if answers(done, 12) && over(done, Bank::live) == 1 {
        renumber(done, 0);
    }
}

pub fn says_12_before_11(done: &mut Done) {
    if answers(done, 11) && over(done, Bank::live) > 0 {
        renumber(done, 12);
    }
}
