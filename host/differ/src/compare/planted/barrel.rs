//! Faults of the barrel insert.

use super::faults::{refuse, state};
use crate::store::book::{sound, PART};
use crate::store::lent::call::{Answer, Call, Manner, What};
use crate::store::lent::port::Done;

/// The insert of this manner with this answer, and its value.
fn insert<'a>(done: &Done<'a>, manner: Manner, number: u32) -> Option<(&'a Call, &'a [u8])> {
    match &done.call?.what {
        What::Insert(own, value) if (*own, &done.answer) == (manner, &Answer::Number(number)) => {
            Some((done.call?, &value[..]))
        }
        _ => None,
    }
}

fn barrel<'a>(done: &Done<'a>, number: u32) -> Option<(&'a Call, &'a [u8])> {
    insert(done, Manner::Barrel, number)
}

pub fn refuses_512(done: &mut Done) {
    if barrel(done, 0).is_some_and(|(_, value)| value.len() == 512) {
        refuse(done, 15);
    }
}

/// One of 513 bytes is inserted as the clock's.
pub fn takes_513(done: &mut Done) {
    if let Some((call, value)) = barrel(done, 15).filter(|(_, value)| value.len() == 513) {
        let (state, work) = (&mut *done.state, &mut *done.work);
        let number = feqyondil::lent::insert(state, work, &call.key, value, call.typ);
        done.answer = Answer::Number(number);
    }
}

pub fn says_8_before_15(done: &mut Done) {
    if let Some((call, value)) = barrel(done, 15) {
        let book = sound::book(done.state, done.work).expect("an insert is refused by 6");
        let bank = book.active_bank().expect("an insert is refused by 7");
        if !bank.has_room(call, value) {
            done.answer = Answer::Number(8);
        }
    }
}

fn says_15_before(done: &mut Done, number: u32) {
    if barrel(done, number).is_some_and(|(_, value)| value.len() > 512) {
        done.answer = Answer::Number(15);
    }
}

pub fn says_15_before_6(done: &mut Done) {
    says_15_before(done, 6);
}

pub fn says_15_before_7(done: &mut Done) {
    says_15_before(done, 7);
}

/// What it takes the place of stays live.
pub fn kills_none(done: &mut Done) {
    if barrel(done, 0).is_some() {
        let before = state(&done.before.0);
        let active = before.active as usize;
        let records = active * PART..active * PART + before.entries[active].total as usize;
        done.work[records.clone()].copy_from_slice(&done.before.1[records]);
    }
}

/// What it would take the place of is removed by then.
pub fn kills_with_15(done: &mut Done) {
    if let Some((call, _)) = barrel(done, 15) {
        feqyondil::lent::remove(done.state, done.work, &call.key, call.typ);
    }
}

/// The clock has the barrels' ceiling.
pub fn limits_the_clock(done: &mut Done) {
    if insert(done, Manner::Plain, 0).is_some_and(|(_, value)| value.len() > 512) {
        refuse(done, 15);
    }
}
