//! Why reading a bank stopped, where it is full.

use feqyondil::{bank_cause, Cause};
use image::Header;

use crate::case::{small, ROOM};
use crate::measure::{Contender, Report};
use crate::partition::port_parse;
use crate::trusting::rust_parse;

pub fn run(report: &mut Report) {
    report.say("one bank, call after call; the Rust says no more than whether it is Valid");
    let contenders: [Contender; 3] = [
        ("Rust parse", &mut rust_parse),
        ("port cause", &mut port_cause),
        ("port parse", &mut port_parse),
    ];
    report.table_over_both("cause, full of small records", contenders, &bank(), (0.6, Some(1.2)));
}

fn bank() -> Vec<u8> {
    image::bank(&Header::default(), &small(ROOM))
}

/// Whether it is the one behind the last record.
fn port_cause(bank: &[u8]) -> u32 {
    u32::from(bank_cause(bank) == Cause::Blank)
}

#[cfg(test)]
mod tests {
    use super::*;
    use image::HEADER;

    #[test]
    fn all_sides_answer_what_they_are_timed_for() {
        let (mut bank, records) = (bank(), small(ROOM));
        assert_eq!((rust_parse(&bank), port_cause(&bank), port_parse(&bank)), (1, 1, 1));
        let before = records[1..].iter().map(|record| record.bytes().len());
        let last = HEADER + before.sum::<usize>();
        bank[last + 32] ^= 1;
        assert_eq!((rust_parse(&bank), port_cause(&bank), port_parse(&bank)), (0, 0, 0));
        assert_eq!(bank_cause(&bank).index(), Some(records.len() - 1));
    }
}
