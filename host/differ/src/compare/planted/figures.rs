//! Faults of the figures.

use image::{Record, COMMON_GUID, SYSTEM_GUID};

use crate::partition::slot::size;
use crate::store::book::{sound, LIVE};
use crate::store::lent::call::Answer;
use crate::store::lent::port::Done;

/// Changes figures that were answered, record by record of the active bank.
fn change(done: &mut Done, change: fn(&mut [u64; 3], &Record)) {
    if let Answer::Figures(0, figures) = &mut done.answer {
        let book = sound::book(done.state, done.work).expect("figures are refused by 6");
        let bank = book.active_bank().expect("figures are refused by 7");
        bank.records.iter().for_each(|record| change(figures, record));
    }
}

pub fn counts_the_live_alone(done: &mut Done) {
    change(done, |figures, record| figures[2] -= u64::from(record.state != LIVE));
}

pub fn sums_the_dead(done: &mut Done) {
    change(done, |figures, record| {
        if record.state != LIVE && record.guid == SYSTEM_GUID {
            figures[0] += size(record) as u64;
        }
    });
}

pub fn sums_a_third_guid(done: &mut Done) {
    change(done, |figures, record| {
        let third = record.guid != SYSTEM_GUID && record.guid != COMMON_GUID;
        if record.state == LIVE && third {
            figures[1] += size(record) as u64;
        }
    });
}

pub fn sums_of_values(done: &mut Done) {
    change(done, |figures, record| {
        if record.state == LIVE && record.guid == COMMON_GUID {
            figures[1] -= (size(record) - record.value.len()) as u64;
        }
    });
}

/// With 7 the number of records is 1.
pub fn refuses_with_a_record(done: &mut Done) {
    if let Answer::Figures(7, figures) = &mut done.answer {
        figures[2] = 1;
    }
}
