//! Faults of the call that says whether two banks hold the same settings.

use feqyondil::{bank_cause, partition_parse};
use image::{is_erased, Record, HEADER, RECORD};

use super::{found, has};
use crate::compare::settings::{port, PortAnswer, Settings};
use crate::describe::{pair, Other, Pair};
use crate::judge::Difference;
use crate::partition::settings::{read, Answer};
use crate::store::book::{Bank, Slot, LIVE};

/// A fault, how many records there are at most in the pair that shows it, and words of what is
/// told.
type Row = (PortAnswer, usize, &'static [&'static str]);

const ROWS: [Row; 15] = [
    (compares_usable, 0, &["Behind(", "Rust: yes\n  N1:   yes\n  port: no"]),
    (compares_reserved, 0, &["HeaderReserved(", "N1:   yes\n  port: no"]),
    (compares_closing, 1, &["Closing(0, ", "N1:   yes\n  port: no"]),
    (skips_the_last, 1, &["Rust: no\n  N1:   no\n  port: yes"]),
    (skips_the_dead, 1, &["N1:   no\n  port: yes"]),
    (skips_the_order, 2, &["Swap(", "N1:   no\n  port: yes"]),
    (skips_attributes, 1, &["Attributes, 0)", "N1:   no\n  port: yes"]),
    (skips_a_limit, 0, &["Header(CommonLimit, 0)", "N1:   no\n  port: yes"]),
    (takes_the_sum_for_the_value, 1, &["SameSum, 0)", "N1:   no\n  port: yes"]),
    (stops_at_the_size, 1, &["N1:   no\n  port: yes"]),
    (takes_empty_ones, 0, &["65536 of 0xff", "N1:   no\n  port: yes"]),
    (takes_equal_bytes, 0, &["Changed([], [])", "N1:   no\n  port: yes"]),
    (takes_a_longer_bank, 0, &["Rust: not asked", "N1:   14\n  port: "]),
    (takes_a_shorter_bank, 0, &["Rust: not asked", "N1:   14\n  port: "]),
    (reads_before_it_refuses, 0, &["Rust: not asked", "N1:   14\n  port: no"]),
];

#[test]
fn faults_are_found_in_the_comparing_of_settings() {
    for (port, most, words) in ROWS {
        let Difference { input, why } = found(&Settings { port, cause: bank_cause }, pair(false));
        let told = format!("{input:?}\n{why}");
        assert!(records(&input) <= most, "{told}");
        has(&told, words);
    }
}

fn records(pair: &Pair) -> usize {
    let own = match &pair.other {
        Other::Own(slot) => slot.described(),
        Other::Changed(..) => None,
    };
    let banks = pair.one.described().into_iter().chain(own);
    banks.map(|bank| bank.records.len() * bank.times).sum()
}

/// Of two Valid banks this, else the port's answer.
fn of_valid(one: &[u8], other: &[u8], same: impl Fn(Bank, Bank) -> bool) -> Answer {
    let answer = port(one, other)?;
    match read([one, other]).map(|both| both.map(|bank| bank.slot.owned())) {
        Some([Slot::Valid(one), Slot::Valid(other)]) => Ok(same(one, other)),
        _ => Ok(answer),
    }
}

/// The same of what is left of both.
fn of_rest(one: &[u8], other: &[u8], rest: impl Fn(&mut Bank)) -> Answer {
    of_valid(one, other, |mut a, mut b| {
        [&mut a, &mut b].into_iter().for_each(&rest);
        a.same_settings(&b)
    })
}

fn compares_usable(one: &[u8], other: &[u8]) -> Answer {
    of_valid(one, other, |a, b| a == b)
}

/// The header's.
fn compares_reserved(one: &[u8], other: &[u8]) -> Answer {
    of_valid(one, other, |a, b| a.same_settings(&b) && one[15] == other[15])
}

/// The first record's.
fn compares_closing(one: &[u8], other: &[u8]) -> Answer {
    of_valid(one, other, |a, b| {
        let closing = a.records.first().map(|first| HEADER + RECORD + first.key.len());
        a.same_settings(&b) && closing.map_or(true, |at| one[at] == other[at])
    })
}

fn skips_the_last(one: &[u8], other: &[u8]) -> Answer {
    of_rest(one, other, |bank| drop(bank.records.pop()))
}

fn skips_the_dead(one: &[u8], other: &[u8]) -> Answer {
    of_rest(one, other, |bank| bank.records.retain(|record| record.state == LIVE))
}

fn skips_the_order(one: &[u8], other: &[u8]) -> Answer {
    of_rest(one, other, |bank| bank.records.sort_by_key(Record::bytes))
}

fn skips_attributes(one: &[u8], other: &[u8]) -> Answer {
    of_rest(one, other, |bank| bank.records.iter_mut().for_each(|r| r.attributes = 0))
}

fn skips_a_limit(one: &[u8], other: &[u8]) -> Answer {
    of_rest(one, other, |bank| bank.header.common_limit = 0)
}

fn takes_the_sum_for_the_value(one: &[u8], other: &[u8]) -> Answer {
    let sum = |r: &mut Record| r.value = crc32fast::hash(&r.value).to_le_bytes().to_vec();
    of_rest(one, other, |bank| bank.records.iter_mut().for_each(sum))
}

/// Compares what would be written, without what passes the size.
fn stops_at_the_size(one: &[u8], other: &[u8]) -> Answer {
    let written = |bank: Bank| {
        let mut bytes = bank.bytes();
        bytes.truncate(bank.header.size as usize);
        bytes
    };
    of_valid(one, other, |a, b| written(a) == written(b))
}

fn takes_empty_ones(one: &[u8], other: &[u8]) -> Answer {
    port(one, other).map(|same| same || is_erased(one) && is_erased(other))
}

fn takes_equal_bytes(one: &[u8], other: &[u8]) -> Answer {
    port(one, other).map(|same| same || one == other)
}

fn takes_a_longer_bank(one: &[u8], other: &[u8]) -> Answer {
    port(&one[..one.len().min(65_536)], &other[..other.len().min(65_536)])
}

fn takes_a_shorter_bank(one: &[u8], other: &[u8]) -> Answer {
    let [one, other] = [one, other].map(|bank| {
        let mut bank = bank.to_vec();
        bank.resize(bank.len().max(65_536), 0xFF);
        bank
    });
    port(&one, &other)
}

fn reads_before_it_refuses(one: &[u8], other: &[u8]) -> Answer {
    match partition_parse(one) {
        feqyondil::Slot::Empty | feqyondil::Slot::Invalid => Ok(false),
        _ => port(one, other),
    }
}
