//! Reading and writing a log of winding runs, of small numbers and of large ones.

use std::cell::RefCell;
use std::hint::black_box;

use ::run_log::{NUMBERS, SIZE_MAX};

use crate::measure::{Contender, Report};

/// What the port is to stay under, over the Rust with the same two passes.
const MOST: f64 = 1.3;
/// The third contender, which has no bar.
const UNCHECKED: &str = "Rust in one pass without a check";

struct Case {
    name: &'static str,
    entries: Vec<u32>,
    log: Vec<u8>,
}

impl Case {
    fn new(name: &'static str, entries: Vec<u32>) -> Self {
        let mut log = vec![0; SIZE_MAX];
        let length = ::run_log::write(&entries, &mut log).expect("a log");
        log.truncate(length);
        Case { name, entries, log }
    }
}

fn cases() -> [Case; 2] {
    // As many as there is room for.
    let large = vec![u32::MAX; (SIZE_MAX - 2) / (5 * NUMBERS) * NUMBERS];
    [Case::new("1,000 entries", winding()), Case::new("numbers of five bytes", large)]
}

/// 1,000 runs, one every 10 to 16 minutes: so many fit where a start takes two bytes, and most
/// lengths and turns one.
fn winding() -> Vec<u32> {
    let mut start = 0;
    let entry = |i: u32| {
        start += 10 + i * 5 % 7;
        let seconds = if i % 13 == 0 { 200 + i % 400 } else { 20 + i * 17 % 100 };
        [start, seconds, 1 + i * 11 % 120]
    };
    (0..1_000).flat_map(entry).collect()
}

pub fn run(report: &mut Report) {
    report.say(
        "call after call; the Rust judges all in a first pass and fills its output in a second",
    );
    for case in &cases() {
        let (entries, bytes) = (case.entries.len() / NUMBERS, case.log.len());
        report.say(&format!("{}: {entries} entries in {bytes} bytes", case.name));
        read(case, report);
        write(case, report);
    }
}

/// All fill the same output: where it stands in memory has a say in how long that takes.
fn read(case: &Case, report: &mut Report) {
    let output = RefCell::new(vec![0; case.entries.len()]);
    let contenders: [Contender; 3] = [
        ("Rust", &mut |log| rust_read(log, &mut output.borrow_mut())),
        ("port", &mut |log| port_read(log, &mut output.borrow_mut())),
        (UNCHECKED, &mut |log| rust_decode(log, &mut output.borrow_mut())),
    ];
    let title = format!("read, {}", case.name);
    report.table_over_both(&title, contenders, &case.log, (MOST, None));
}

/// The entries are at hand; the input that is timed is not looked at.
fn write(case: &Case, report: &mut Report) {
    let output = RefCell::new(vec![0; case.log.len()]);
    let entries = || black_box(&case.entries[..]);
    let contenders: [Contender; 3] = [
        ("Rust", &mut |_| rust_write(entries(), &mut output.borrow_mut())),
        ("port", &mut |_| port_write(entries(), &mut output.borrow_mut())),
        (UNCHECKED, &mut |_| rust_encode(entries(), &mut output.borrow_mut())),
    ];
    let title = format!("write, {}", case.name);
    report.table_over_both(&title, contenders, &case.log, (MOST, None));
}

/// Each answers the count or the length, 0 for a refusal.
fn rust_read(log: &[u8], entries: &mut [u32]) -> u32 {
    ::run_log::read(log, entries).map_or(0, |count| count as u32)
}

fn port_read(log: &[u8], entries: &mut [u32]) -> u32 {
    feqyondil::run_log_read(log, entries).map_or(0, |count| count as u32)
}

fn rust_decode(log: &[u8], entries: &mut [u32]) -> u32 {
    ::run_log::decode(log, entries);
    (entries.len() / NUMBERS) as u32
}

fn rust_write(entries: &[u32], log: &mut [u8]) -> u32 {
    ::run_log::write(entries, log).map_or(0, |length| length as u32)
}

fn port_write(entries: &[u32], log: &mut [u8]) -> u32 {
    feqyondil::run_log_write(entries, log).map_or(0, |length| length as u32)
}

fn rust_encode(entries: &[u32], log: &mut [u8]) -> u32 {
    ::run_log::encode(entries, log) as u32
}

#[cfg(test)]
mod tests {
    use super::*;

    #[test]
    fn all_sides_answer_what_they_are_timed_for() {
        for Case { name, entries, log } in cases() {
            let count = (entries.len() / NUMBERS) as u32;
            for read in [rust_read, port_read, rust_decode] {
                let mut out = vec![7; entries.len()];
                assert_eq!((read(&log, &mut out), &out), (count, &entries), "{name}");
            }
            for write in [rust_write, port_write, rust_encode] {
                let mut out = vec![7; log.len()];
                assert_eq!(write(&entries, &mut out), log.len() as u32, "{name}");
                assert_eq!(out, log, "{name}");
            }
        }
    }

    #[test]
    fn the_logs_are_nearly_full() {
        let [small, large] = cases();
        assert_eq!((small.entries.len(), large.entries.len()), (3_000, 816));
        assert!(small.log.len() > 4_000 && large.log.len() > 4_000);
    }
}
