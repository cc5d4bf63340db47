//! Each cause, which of several is named, and how it is printed.

use std::string::ToString;
use std::vec;
use std::vec::Vec;

use super::*;
use crate::samples::{self, VALUE};
use crate::{partition_parse, Slot, BANK_SIZE};

/// Where the records of `bank` start.
const STARTS: [usize; 3] = [24, 74, 124];

fn bank(size: u32) -> Vec<u8> {
    samples::bank(size, &[VALUE; 3])
}

/// The cause, which goes with what the bank is read as.
fn named(bank: &[u8]) -> Cause {
    let (cause, slot) = (bank_cause(bank), partition_parse(bank));
    assert_eq!(slot == Slot::Invalid, cause.is_fault(), "{cause}");
    assert_eq!(slot == Slot::Empty, cause == Cause::Empty, "{cause}");
    assert_eq!(slot == Slot::Short, cause == Cause::Short, "{cause}");
    cause
}

/// That of a bank of three records with other bytes from each of these places on.
fn with(changes: &[(usize, &[u8])]) -> Cause {
    let mut bank = bank(65_536);
    for &(at, bytes) in changes {
        bank[at..at + bytes.len()].copy_from_slice(bytes);
    }
    named(&bank)
}

#[test]
fn each_cause_is_named_at_the_first_record_and_at_later_ones() {
    for (index, start) in STARTS.into_iter().enumerate() {
        let spot = |field| Spot { place: start + field, index };
        let (name, crc) = (Cause::Name(spot(8)), Cause::Crc(spot(32)));
        let changed = |at, bytes| with(&[(start + at, bytes)]);
        assert_eq!(changed(0, &[0xFF; 36]), Cause::Blank);
        assert_eq!(changed(1, b"\x54"), Cause::Start);
        assert_eq!(changed(14, b"\x01"), Cause::Length);
        assert_eq!(changed(8, b"\0"), name);
        assert_eq!(changed(32, b"\0"), crc);
        assert_eq!(changed(36 + 5, b"0"), crc);
        assert_eq!(named(&bank(start as u32 + 36)), Cause::End);
    }
    assert_eq!(with(&[]), Cause::Blank);
}

#[test]
fn dead_records_count_in_the_index() {
    let crc = Cause::Crc(Spot { place: 124 + 32, index: 2 });
    assert_eq!(with(&[(24 + 2, b"\x7C"), (124 + 32, b"\0")]), crc);
}

#[test]
fn the_header_has_an_order() {
    let (signature, size, version) = ((3, &b"M"[..]), (4, &[23, 0, 0, 0][..]), (14, &b"\x02"[..]));
    let record = (24 + 32, &b"\0"[..]);
    assert_eq!(with(&[signature, size, version, record]), Cause::Signature);
    assert_eq!(with(&[size, version, record]), Cause::Version);
    assert_eq!(with(&[size, record]), Cause::Size);
    assert_eq!(named(&bank(65_537)), Cause::Size);
    assert_eq!(named(&bank(24)), Cause::End);
}

#[test]
fn a_record_has_an_order() {
    let (none, most) = ([0; 4], [0xFF; 4]);
    // Zeros have no start number and a name length of 0.
    assert_eq!(with(&[(74, &[0; 36])]), Cause::Blank);
    assert_eq!(with(&[(74, b"\xAB"), (74 + 8, &none), (74 + 12, &most)]), Cause::Start);
    assert_eq!(with(&[(74 + 8, &none), (74 + 12, &most)]), Cause::Length);
    let name = Cause::Name(Spot { place: 74 + 8, index: 1 });
    assert_eq!(with(&[(74 + 8, &none), (74 + 32, b"\0")]), name);
}

#[test]
fn a_fault_behind_a_stop_is_not_named() {
    let (name, crc) = ((74 + 8, &b"\0"[..]), (124 + 32, &b"\0"[..]));
    assert_eq!(with(&[(24, &[0; 36]), name, crc]), Cause::Blank);
    assert_eq!(with(&[(24, b"\xAB"), name, crc]), Cause::Start);
    assert_eq!(with(&[(24 + 12, &[0xFF; 4]), name, crc]), Cause::Length);
    assert_eq!(with(&[(4, &[74 + 36, 0, 0, 0]), name, crc]), Cause::End);
}

#[test]
fn a_record_may_end_with_the_bank_and_not_behind_it() {
    let value = vec![7; BANK_SIZE - 24 - 36 - 5];
    let mut whole = samples::bank(65_536, &[&value]);
    assert_eq!(named(&whole), Cause::End);
    whole[BANK_SIZE - 1] = 0;
    let crc = Cause::Crc(Spot { place: 56, index: 0 });
    assert_eq!(named(&whole), crc);
    whole[24 + 8] += 1;
    assert_eq!(named(&whole), Cause::Length);
}

#[test]
fn a_record_is_looked_at_from_size_61_on() {
    let spoilt = |size| {
        let mut bank = samples::bank(size, &[VALUE]);
        bank[24 + 32] = 0;
        named(&bank)
    };
    assert_eq!(spoilt(60), Cause::End);
    assert_eq!(spoilt(61), Cause::Crc(Spot { place: 56, index: 0 }));
    assert_eq!(named(&samples::bank(61, &[VALUE])), Cause::End);
}

#[test]
fn reserved_and_closing_bytes_are_no_cause() {
    let closing = 24 + 36 + 4;
    assert_eq!(with(&[(15, &[255]), (24 + 3, &[255]), (closing, &[255])]), Cause::Blank);
}

#[test]
fn the_first_65536_bytes_count() {
    for first in [bank(65_536), bank(110), vec![0xFF; BANK_SIZE], vec![0; BANK_SIZE]] {
        let longer = [first.clone(), vec![7; BANK_SIZE]].concat();
        for len in [BANK_SIZE, BANK_SIZE + 1, 2 * BANK_SIZE] {
            assert_eq!(bank_cause(&longer[..len]), named(&first), "{len}");
        }
        for len in [0, 1, 24, BANK_SIZE - 1] {
            assert_eq!(named(&longer[..len]), Cause::Short, "{len}");
        }
    }
}

#[test]
fn an_erased_bank_is_empty() {
    let mut erased = vec![0xFF; BANK_SIZE];
    assert_eq!(named(&erased), Cause::Empty);
    erased[BANK_SIZE - 1] = 0xFE;
    assert_eq!(named(&erased), Cause::Signature);
}

#[test]
fn each_cause_has_its_line() {
    let (name, crc) = (Spot { place: 82, index: 1 }, Spot { place: 56, index: 0 });
    let lines = [
        (Cause::Short, "short"),
        (Cause::Empty, "empty"),
        (Cause::Signature, "signature 0"),
        (Cause::Version, "version 14"),
        (Cause::Size, "size 4"),
        (Cause::Name(name), "name 82 1"),
        (Cause::Crc(crc), "crc 56 0"),
        (Cause::Blank, "blank"),
        (Cause::Start, "start"),
        (Cause::Length, "length"),
        (Cause::End, "end"),
    ];
    for (cause, line) in lines {
        assert_eq!(cause.to_string(), line);
        assert_eq!(cause.is_fault(), line.contains(' '), "{line}");
    }
    assert_eq!((Cause::Size.place(), Cause::Size.index()), (Some(4), None));
    assert_eq!((Cause::Crc(crc).place(), Cause::Crc(crc).index()), (Some(56), Some(0)));
}

#[test]
#[should_panic(expected = "the library answered 3 with [4, 0]")]
fn another_place_is_a_fault() {
    told(3, [4, 0]);
}

#[test]
#[should_panic(expected = "the library answered 11 with [0, 0]")]
fn another_number_is_a_fault() {
    told(11, [0, 0]);
}
