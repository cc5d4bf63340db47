//! The comparisons can fail: faults planted in the port are found among random inputs, and made as
//! small as is said.

mod barrel;
mod careful;
mod causes;
mod faults;
mod figures;
mod rates;
mod run_log;
mod settings;
mod tally;

use feqyondil::bank_cause;
use proptest::strategy::{Just, Strategy};

use super::any_state::AnyState;
use super::banks::{self, Banks, PortReader};
use super::checksum::{self, Checksum};
use super::runs::Runs;
use crate::describe::{case, moving_case, run, Bytes, Reach, Run, Style};
use crate::judge::{Comparison, Difference, Judge, Mode, Part};
use crate::partition::lent::{self, Lending};
use crate::partition::slot::Slot;
use crate::partition::Read;
use crate::store::fixed::two_banks;
use crate::store::lent::port::{Done, Port};
use barrel::*;
use careful::*;
use faults::*;
use figures::*;
use tally::*;

/// The first difference among many inputs, made small.
fn found<C: Comparison>(
    comparison: &C,
    strategy: impl Strategy<Value = C::Input> + 'static,
) -> Difference<C::Input> {
    found_from(1, comparison, strategy)
}

/// The same from this seed on, on which it depends how small a difference becomes.
fn found_from<C: Comparison>(
    seed: u64,
    comparison: &C,
    strategy: impl Strategy<Value = C::Input> + 'static,
) -> Difference<C::Input> {
    let inputs = Part::drawn("", 20_000, strategy).inputs;
    let found = Judge::new(Mode::Short, seed).part(comparison, "", inputs);
    found.expect_err("a difference")
}

/// A difference is found, of this size at most, and told in these words.
fn is_found<C: Comparison>(
    comparison: &C,
    strategy: impl Strategy<Value = C::Input> + 'static,
    size: fn(&C::Input) -> u64,
    (most, words): (u64, &[&str]),
) {
    let Difference { input, why } = found(comparison, strategy);
    let told = format!("{}\n{why}", comparison.told(&input));
    assert!(size(&input) <= most, "{told}");
    has(&told, words);
}

fn has(told: &str, words: &[&str]) {
    for word in words {
        assert!(told.contains(word), "{word}: {told}");
    }
}

/// A fault, how many calls and records there are at most in the run that shows it, and words of
/// what is told.
type Row = (fn(&mut Done), usize, usize, &'static [&'static str]);

const RUNS: [Row; 13] = [
    (turns_all_down, 0, 0, &["01:   0\n  port: 4"]),
    (the_first_wins, 0, 0, &["01's state:   n 2, active 0", "port's state: n 2, active 1"]),
    (writes_and_refuses, 0, 1, &["the work area from 0 on, 01: [5a, "]),
    (kills_one, 1, 2, &["call 1: remove, key "]),
    (full_early, 1, 0, &["01:   0\n  port: 8"]),
    (says_none, 2, 1, &["Rust: 0, found 1, place ", "port: 0, found 0, place 0"]),
    (finds_nothing, 1, 0, &["Rust: 0, found 0, place 0", "port: 0, found 1, place 0"]),
    (whole_banks, 1, 0, &["call 1: whole image", "port: 0, length 65536, "]),
    (counts_the_live_alone, 2, 1, &["Rust: 0, system 0, common 0, 1 records", ", 0 records"]),
    (sums_the_dead, 2, 1, &["Rust: 0, system 0, common 0, 1 records", "port: 0, system 3"]),
    (
        sums_a_third_guid,
        1,
        1,
        &["Rust: 0, system 0, common 0, 1 records", "port: 0, system 0, common 3"],
    ),
    (sums_of_values, 2, 1, &["Rust: 0, system 0, common 3", "port: 0, system 0, common 0"]),
    (refuses_with_a_record, 1, 0, &["01:   7, system 0, common 0, 0 records", "port: 7"]),
];

const MOVING_RUNS: [Row; 14] = [
    (asks_for_nothing, 1, 0, &["port: 0, erase 0 at 0, write at 0, length 0"]),
    (writes_the_old_bank, 3, 2, &["01:   0, erase ", "port: 0, erase "]),
    (erases_the_empty, 3, 2, &["01:   0, erase 0 at 0", "port: 0, erase 1 at "]),
    (writes_the_dead_wrong, 3, 2, &["from 26 on, 01: 7c", "port: ff"]),
    (drops_the_dead, 3, 2, &["from 24 on, 01: aa557c", "port: "]),
    (counts_the_dead, 3, 2, &["01:   0, erase ", "port: 9, erase 0"]),
    (keeps_the_generation, 3, 2, &["from 8 on, 01: "]),
    (keeps_the_state, 3, 2, &["01's state: ", "port's state: "]),
    (keeps_what_is_usable, 3, 2, &["01's state: ", "port's state: "]),
    (clears_the_old_slot, 3, 2, &["01's state: ", "port's state: "]),
    (writes_behind_the_length, 1, 0, &["on, 01: a5", "port: ff"]),
    (stays_with_12, 2, 2, &["01:   12, erase "]),
    (forgets_with_12, 2, 2, &["01:   12, erase 1 at ", "port: 12, erase 0 at 0"]),
    (wraps_with_11, 3, 2, &["01:   11, erase 0"]),
];

const CAREFUL_RUNS: [Row; 9] = [
    (counts_with_12, 2, 2, &["01's state:   n ", "clock 0, barrel 0", "clock 1, barrel 0"]),
    (asks_with_12, 2, 2, &["01:   12, erase 0 at 0", "port: 12, erase 1 at "]),
    (writes_with_12, 2, 2, &["01:   12, erase 0 at 0", "from 0 on, 01: a5", "port: ff"]),
    (moves_before_12, 2, 2, &["01's state: ", "port's state: "]),
    (leaves_the_move_in_the_work_area, 2, 2, &["the work area from ", " on, 01: "]),
    (takes_the_total, 3, 2, &["01:   0, erase ", "port: 12, erase 0 at 0"]),
    (is_a_byte_early, 3, 2, &["01:   0, erase ", "port: 12, erase 0 at 0"]),
    (is_a_byte_late, 2, 2, &["01:   12, erase 0 at 0", "port: 0, erase 0 at 0"]),
    (says_12_before_11, 2, 2, &["01:   11, erase 0 at 0", "port: 12, erase 0 at 0"]),
];

const BARREL_RUNS: [Row; 8] = [
    (refuses_512, 1, 0, &["call 1: barrel insert of ", "01:   0\n  port: 15"]),
    (takes_513, 1, 0, &["call 1: barrel insert of ", "01:   15\n  port: 0"]),
    (says_8_before_15, 2, 0, &[": barrel insert of ", "01:   15\n  port: 8"]),
    (says_15_before_6, 1, 0, &["call 1: barrel insert of ", "01:   6\n  port: 15"]),
    (says_15_before_7, 1, 0, &["call 1: barrel insert of ", "01:   7\n  port: 15"]),
    (kills_none, 2, 1, &[": barrel insert of ", "on, 01: [7c, ", "port: [7f, "]),
    (kills_with_15, 2, 1, &[": barrel insert of ", "on, 01: [7f, ", "port: [7c, "]),
    (limits_the_clock, 1, 0, &["call 1: insert of ", "01:   0\n  port: 15"]),
];

const TALLY_RUNS: [Row; 8] = [
    (counts_twice, 3, 2, &["clock 1, barrel 0", "clock 2, barrel 0"]),
    (counts_for_the_other, 3, 2, &["clock 1, barrel 0", "clock 0, barrel 1"]),
    (takes_others_as_the_clock, 3, 2, &["clock 0, barrel 1", "clock 1, barrel 0"]),
    (counts_in_place, 1, 0, &["clock 0, barrel 0", "clock 1, barrel 0"]),
    (counts_every_move, 3, 2, &["01's state: ", "port's state: "]),
    (counts_no_12, 2, 2, &["clock 1, barrel 0", "clock 0, barrel 0"]),
    (counts_a_barrel_insert, 1, 0, &["clock 0, barrel 0", "clock 0, barrel 1"]),
    (opens_with_a_tally, 0, 0, &["clock 0, barrel 0", "clock 0, barrel 1515870810"]),
];

const ANY_STATE: [Row; 6] = [
    (skips_entries, 0, 0, &["01:   6, found 0"]),
    (wraps_the_total, 0, 0, &["total 4294967295\n", "port: 0, clock "]),
    (sums_past_the_stop, 0, 0, &["total 4294967295\n", "total 4294967296"]),
    (writes_no_zeros_with_6, 0, 0, &["01:   6, clock 0, barrel 0, total 0"]),
    (asks_for_a_sound_state, 0, 0, &["01:   0, clock 0, barrel 0, total 0", "port: 6"]),
    (tells_of_any_kinds, 0, 0, &["01:   6, clock 0, barrel 0, total 0", "port: 0"]),
];

const MOVING_STATE: [Row; 2] = [
    (wraps_a_tally, 1, 1, &["clock 4294967295, barrel 0", "clock 0, barrel 0"]),
    (stops_with_the_total, 1, 1, &["barrel 4294967295", "clock 1, ", "clock 0, "]),
];

fn planted(fault: fn(&mut Done)) -> Port {
    Port { fault: Some(fault), ..Port::default() }
}

fn small((_, calls, records, words): Row, size: (usize, usize), told: &str) {
    assert!(size.0 <= calls && size.1 <= records, "{size:?}: {told}");
    has(told, words);
}

#[test]
fn faults_are_found_in_runs() {
    let moving = || Style { reach: Just(Reach::Free).boxed(), ..Style::small() };
    let rows = RUNS.into_iter().chain(BARREL_RUNS).map(|row| (Style::store(), row));
    let rows = rows.chain(MOVING_RUNS.into_iter().chain(TALLY_RUNS).map(|row| (moving(), row)));
    for (style, row) in rows.chain(CAREFUL_RUNS.map(|row| (Style::careful(), row))) {
        let runs = Runs { port: planted(row.0) };
        let Difference { input, why } = found_from(33, &runs, run(&style, 20, false));
        let size = (input.calls.len(), input.image.records());
        small(row, size, &format!("{input}\n{why}"));
    }
}

#[test]
fn faults_are_found_on_any_state() {
    let any = ANY_STATE.map(|row| (case(false).boxed(), row));
    let moving = MOVING_STATE.map(|row| (moving_case(false).boxed(), row));
    for (cases, row) in any.into_iter().chain(moving) {
        let any = AnyState { port: planted(row.0) };
        let Difference { input, why } = found_from(4, &any, cases);
        let size = (input.calls.len(), input.image.records());
        assert!(input.damages.len() <= 1, "{input}");
        small(row, size, &format!("{input}\n{why}"));
    }
}

#[test]
fn faults_are_found_in_the_reading_of_banks() {
    let rows: [(PortReader, usize, &[&str]); 3] = [
        (usable_off, 2, &["01:   Valid, total 98, ", "port: Valid, total 98, "]),
        (kind_off, 0, &["flags 07, ", "port: Invalid"]),
        (attributes_off, 1, &["attributes: 0x1"]),
    ];
    for (port, records, words) in rows {
        let Difference { input, why } = found(&Banks::new(port, bank_cause), banks::random());
        let told = format!("{input:?}\n{why}");
        let described = input.slot.described().map_or(0, |bank| bank.records.len() * bank.times);
        assert!(described <= records, "{told}");
        has(&told, words);
    }
}

/// One too many behind two records or more.
fn usable_off<'a>(image: &[u8], how: Lending, buffer: &'a mut Vec<u8>) -> Read<'a> {
    let mut slot = lent::read(image, how, buffer)?;
    if let Slot::Valid(bank) = &mut slot {
        bank.usable += usize::from(bank.records.len() > 1);
    }
    Ok(slot)
}

/// Invalid from flags of 7 on.
fn kind_off<'a>(image: &[u8], how: Lending, buffer: &'a mut Vec<u8>) -> Read<'a> {
    let slot = lent::read(image, how, buffer)?;
    let off = matches!(&slot, Slot::Valid(bank) if bank.header.flags >= 7);
    Ok(if off { Slot::Invalid } else { slot })
}

fn attributes_off<'a>(image: &[u8], how: Lending, buffer: &'a mut Vec<u8>) -> Read<'a> {
    let mut slot = lent::read(image, how, buffer)?;
    if let Slot::Valid(bank) = &mut slot {
        bank.records.iter_mut().for_each(|r| r.attributes = 0);
    }
    Ok(slot)
}

#[test]
fn faults_of_the_checksum_are_found() {
    let long = |data: &[u8]| crc32fast::hash(data) ^ u32::from(data.len() > 999);
    let Difference { input, why } = found(&Checksum::of(long), checksum::random());
    assert_eq!((input.start, input.bytes), (0, Bytes::Fill(1000, 0)));
    has(&why, &["  Rust: ", "\n  port: ", ", with lent tables"]);
    let odd = |data: &[u8]| crc32fast::hash(data) ^ (data.as_ptr() as u32 & 1);
    let Difference { input, .. } = found(&Checksum::of(odd), checksum::random());
    assert_eq!((input.start % 2, input.bytes), (1, Bytes::Fill(0, 0)));
}

/// What is told of a fault in 01's bench case of two banks, which move three times.
fn in_two_banks(fault: fn(&mut Done), words: &[&str]) {
    let runs = Runs { port: planted(fault) };
    has(&runs.compare(&Run::of(&two_banks::run())).unwrap_err(), words);
}

#[test]
fn an_erase_one_insert_early_is_found() {
    let words = ["at call 28 (commit", "01:   0, erase 0 at 0", "port: 0, erase 1 at 65536"];
    in_two_banks(erases_early, &words);
}

#[test]
fn a_move_that_is_repeated_is_found() {
    let words = ["at call 60 (commit", "port: 0, erase 1 at 0, write at 0", "from 8 on, 01: 03"];
    in_two_banks(repeats_a_move, &words);
}
