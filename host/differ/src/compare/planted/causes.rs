//! Faults of the call that says why the reading of a bank stopped.

use feqyondil::{bank_cause, Cause, Spot};
use image::{is_erased, number, put_number, BANK, RECORD};

use super::{found, has};
use crate::compare::any_state::AnyState;
use crate::compare::banks::{self, Banks};
use crate::compare::cuts::{GoesOn, Repeated};
use crate::compare::runs::Runs;
use crate::compare::settings::{self, Settings};
use crate::describe::{case, pair, plan, run, Style};
use crate::judge::{Difference, Judge, Mode, Part};
use crate::partition::cause::PortCause;
use crate::partition::lent;
use crate::partition::model;
use crate::partition::slot::Slot;
use crate::store::book::{Bank, LIVE};
use crate::store::lent::Port;

/// A fault, and what is told of it among the banks of each cause: by 01, and by the port.
type Row = (PortCause, &'static str, &'static str);

const ROWS: [Row; 14] = [
    (empty_is_a_signature, "empty", "signature 0"),
    (version_first, "signature 0", "version 14"),
    (size_before_version, "version 14", "size 4"),
    (name_before_length, "length", "name 74 1"),
    (name_at_the_record, "name 32 0", "name 24 0"),
    (crc_from_the_record, "crc 56 0", "crc 32 0"),
    (index_from_1, "name 32 0", "name 32 1"),
    (index_of_the_live, "name 74 1", "name 74 0"),
    (blank_of_zeros, "blank", "start"),
    (reads_past_a_blank, "blank", "crc 98 1"),
    (reads_past_the_size, "end", "crc 56 0"),
    (length_by_size, "end", "length"),
    (length_by_what_is_lent, "length", "end"),
    (short_is_empty, "empty", "empty, with 65535 bytes"),
];

#[test]
fn faults_are_found_in_the_naming_of_causes() {
    for (cause, said, named) in ROWS {
        let banks = Banks::new(lent::read, cause);
        let fixed = Part::each("", banks::fixed()).inputs;
        let fixed = Judge::new(Mode::Short, 1).part(&banks, "", fixed);
        let Difference { input, why } = fixed.expect_err(named);
        let told = format!("  01's cause:   {said}\n  port's cause: {named}");
        assert!(why.ends_with(&told), "{input:?}\n{why}");
        // It is found among random banks too.
        has(&found(&banks, banks::random()).why, &["  01's cause:   "]);
    }
}

/// The comparisons that make more than one bank ask for the cause of each.
#[test]
fn a_cause_is_asked_of_every_bank_that_is_made() {
    let port = Port { cause: index_from_1, ..Port::default() };
    let repeated = Repeated { port, goes_on: GoesOn::StraightOn };
    let settings = Settings { port: settings::port, cause: index_from_1 };
    let told = [
        found(&settings, pair(false)).why,
        found(&Runs { port }, run(&Style::store(), 12, false)).why,
        found(&AnyState { port }, case(false)).why,
        found(&repeated, plan()).why,
    ];
    for why in told {
        has(&why, &["of the bank at ", "01's cause:   ", "port's cause: "]);
    }
}

/// What was read of a Valid bank, and where the reading stopped.
fn read(nvr: &[u8]) -> (Bank, usize) {
    match model::read(&nvr[..BANK]).slot.owned() {
        Slot::Valid(bank) => {
            let total = bank.total();
            (bank, total)
        }
        other => panic!("{other}"),
    }
}

/// The port's cause of a bank that was changed; the first one where it would name no fault.
fn fault_of(changed: Vec<u8>, first: Cause) -> Cause {
    Some(bank_cause(&changed)).filter(|cause| cause.is_fault()).unwrap_or(first)
}

fn empty_is_a_signature(nvr: &[u8]) -> Cause {
    match bank_cause(nvr) {
        Cause::Empty => Cause::Signature,
        cause => cause,
    }
}

fn version_first(nvr: &[u8]) -> Cause {
    match bank_cause(nvr) {
        Cause::Signature if nvr[14] != 1 => Cause::Version,
        cause => cause,
    }
}

fn size_before_version(nvr: &[u8]) -> Cause {
    match bank_cause(nvr) {
        Cause::Version if !(24..=65_536).contains(&number(nvr, 4)) => Cause::Size,
        cause => cause,
    }
}

fn name_before_length(nvr: &[u8]) -> Cause {
    let cause = bank_cause(nvr);
    if cause == Cause::Length {
        let (bank, at) = read(nvr);
        if number(nvr, at + 8) == 0 {
            return Cause::Name(Spot { place: at + 8, index: bank.records.len() });
        }
    }
    cause
}

/// Where its name length is 0, its first byte is named.
fn name_at_the_record(nvr: &[u8]) -> Cause {
    match bank_cause(nvr) {
        Cause::Name(spot) => Cause::Name(Spot { place: spot.place - 8, ..spot }),
        cause => cause,
    }
}

/// The place is counted from the record's start.
fn crc_from_the_record(nvr: &[u8]) -> Cause {
    match bank_cause(nvr) {
        Cause::Crc(spot) => Cause::Crc(Spot { place: 32, ..spot }),
        cause => cause,
    }
}

/// The same with another index.
fn with_index(cause: Cause, index: impl Fn(Spot) -> usize) -> Cause {
    let spot = |spot: Spot| Spot { index: index(spot), ..spot };
    match cause {
        Cause::Name(at) => Cause::Name(spot(at)),
        Cause::Crc(at) => Cause::Crc(spot(at)),
        cause => cause,
    }
}

fn index_from_1(nvr: &[u8]) -> Cause {
    with_index(bank_cause(nvr), |spot| spot.index + 1)
}

/// Dead records are not counted.
fn index_of_the_live(nvr: &[u8]) -> Cause {
    with_index(bank_cause(nvr), |spot| {
        // Those that are read where the size ends before the fault.
        let mut front = nvr.to_vec();
        put_number(&mut front, 4, spot.place as u32);
        let records = read(&front).0.records.into_iter().take(spot.index);
        records.filter(|record| record.state == LIVE).count()
    })
}

fn blank_of_zeros(nvr: &[u8]) -> Cause {
    let cause = bank_cause(nvr);
    if cause == Cause::Blank {
        let (_, at) = read(nvr);
        if nvr[at..at + RECORD].contains(&0xFF) {
            return Cause::Start;
        }
    }
    cause
}

/// A fault behind a blank is named.
fn reads_past_a_blank(nvr: &[u8]) -> Cause {
    let cause = bank_cause(nvr);
    if cause != Cause::Blank {
        return cause;
    }
    let (mut without, (bank, at)) = (nvr[..BANK].to_vec(), read(nvr));
    without.drain(at..bank.usable);
    without.resize(BANK, 0xFF);
    fault_of(without, cause)
}

/// A fault behind the size is named.
fn reads_past_the_size(nvr: &[u8]) -> Cause {
    let cause = bank_cause(nvr);
    if cause != Cause::End {
        return cause;
    }
    let mut whole = nvr.to_vec();
    put_number(&mut whole, 4, 65_536);
    fault_of(whole, cause)
}

/// A record's end is held against the size, not against the bank's.
fn length_by_size(nvr: &[u8]) -> Cause {
    match bank_cause(nvr) {
        Cause::End if read(nvr).0.is_over() => Cause::Length,
        cause => cause,
    }
}

/// A record's end is held against all that is lent.
fn length_by_what_is_lent(nvr: &[u8]) -> Cause {
    let cause = bank_cause(nvr);
    if cause == Cause::Length {
        let (_, at) = read(nvr);
        let len = [8, 12].map(|field| number(nvr, at + field) as usize).iter().sum::<usize>();
        if len <= nvr.len() - at - RECORD {
            return Cause::End;
        }
    }
    cause
}

fn short_is_empty(nvr: &[u8]) -> Cause {
    match bank_cause(nvr) {
        Cause::Short if is_erased(nvr) => Cause::Empty,
        cause => cause,
    }
}
