//! N6's words, one after the other.

use super::*;

use Refusal::{Length, Number, Order};

/// What outputs hold before a call.
const BEFORE: u8 = 0xA5;

/// The entries, in an output of so many numbers; what is behind them, and all of it after a refusal,
/// stays.
fn read_to(log: &[u8], room: usize) -> Result<Vec<u32>, Refusal> {
    let mut out = vec![BEFORE.into(); room];
    let count = read(log, &mut out);
    let rest = out.split_off(NUMBERS * count.unwrap_or(0));
    assert!(rest.iter().all(|&number| number == BEFORE.into()), "{log:02x?}");
    count.map(|_| out)
}

fn entries_of(log: &[u8]) -> Result<Vec<u32>, Refusal> {
    read_to(log, log.len())
}

/// The log, in the same way.
fn written_to(entries: &[u32], room: usize) -> Result<Vec<u8>, Refusal> {
    let mut out = vec![BEFORE; room];
    let length = write(entries, &mut out);
    let rest = out.split_off(length.unwrap_or(0));
    assert!(rest.iter().all(|&byte| byte == BEFORE), "{entries:?}");
    length.map(|_| out)
}

fn log_of(entries: &[u32]) -> Result<Vec<u8>, Refusal> {
    written_to(entries, 5 * (entries.len() + 1))
}

/// An accepted log is what the writer makes of its entries, and these read back the same; outputs
/// that are one short are refused.
fn both(log: &[u8], entries: &[u32]) {
    assert_eq!((entries_of(log), log_of(entries)), (Ok(entries.to_vec()), Ok(log.to_vec())));
    assert_eq!(read_to(log, entries.len()), Ok(entries.to_vec()));
    assert_eq!(written_to(entries, log.len()), Ok(log.to_vec()));
    assert_eq!(written_to(entries, log.len() - 1), Err(Length));
    for less in 1..=entries.len().min(NUMBERS) {
        assert_eq!(read_to(log, entries.len() - less), Err(Length), "{less} less");
    }
}

/// The boundaries of 2^7, 2^14, 2^21, 2^28 and 2^32, with their groups.
const BOUNDARIES: [(u32, &[u8]); 11] = [
    (0, &[0x00]),
    (1, &[0x01]),
    (0x7F, &[0x7F]),
    (0x80, &[0x80, 0x01]),
    (0x3FFF, &[0xFF, 0x7F]),
    (0x4000, &[0x80, 0x80, 0x01]),
    (0x1F_FFFF, &[0xFF, 0xFF, 0x7F]),
    (0x20_0000, &[0x80, 0x80, 0x80, 0x01]),
    (0xFFF_FFFF, &[0xFF, 0xFF, 0xFF, 0x7F]),
    (0x1000_0000, &[0x80, 0x80, 0x80, 0x80, 0x01]),
    (0xFFFF_FFFF, &[0xFF, 0xFF, 0xFF, 0xFF, 0x0F]),
];

/// No number: cut off, not shortest, too large.
const NONE: [&[u8]; 13] = [
    &[],
    &[0x80],
    &[0xFF, 0xFF, 0xFF, 0xFF],
    &[0x80, 0x00],
    &[0x81, 0x00],
    &[0x80, 0x80, 0x00],
    &[0xFF, 0xFF, 0xFF, 0x00],
    &[0xFF, 0xFF, 0xFF, 0xFF, 0x00],
    &[0x80, 0x80, 0x80, 0x80, 0x10],
    &[0xFF, 0xFF, 0xFF, 0xFF, 0x1F],
    &[0xFF, 0xFF, 0xFF, 0xFF, 0x7F],
    &[0x80, 0x80, 0x80, 0x80, 0x80, 0x00],
    &[0xFF, 0xFF, 0xFF, 0xFF, 0xFF, 0xFF, 0xFF, 0xFF, 0xFF, 0x01],
];

#[test]
fn a_log_is_the_count_and_three_numbers_each() {
    both(&[0], &[]);
    both(&[1, 2, 3, 4], &[2, 3, 4]);
    both(&[2, 2, 3, 4, 5, 6, 7], &[2, 3, 4, 5, 6, 7]);
    let entries = [7; NUMBERS * 128];
    both(&[&[0x80, 0x01][..], &[7; NUMBERS * 128]].concat(), &entries);
}

#[test]
fn numbers_stand_in_groups_of_seven_bits() {
    for (number, groups) in BOUNDARIES {
        both(&[&[1], groups, &[3, 4]].concat(), &[number, 3, 4]);
        both(&[&[1, 2], groups, &[4]].concat(), &[2, number, 4]);
        both(&[&[1, 2, 3], groups].concat(), &[2, 3, number]);
    }
}

#[test]
fn a_number_cut_off_not_shortest_or_too_large_is_16() {
    for none in NONE {
        for before in [&[][..], &[1], &[1, 2], &[1, 2, 3], &[2, 2, 3, 4, 5, 6]] {
            assert_eq!(entries_of(&[before, none].concat()), Err(Number), "{none:02x?}");
        }
        // Bytes behind it don't mend it, unless it was cut off.
        if none.last().is_some_and(|last| last & MORE == 0) {
            assert_eq!(entries_of(&[&[1, 2], none, &[4]].concat()), Err(Number), "{none:02x?}");
        }
    }
    // A count of which the log lacks entries.
    assert_eq!(entries_of(&[2, 2, 3, 4]), Err(Number));
    assert_eq!(entries_of(&[0xFF, 0xFF, 0xFF, 0xFF, 0x0F, 2, 3, 4]), Err(Number));
}

#[test]
fn start_minutes_that_fall_are_17_and_equal_ones_may_follow() {
    both(&[2, 2, 3, 4, 2, 6, 7], &[2, 3, 4, 2, 6, 7]);
    assert_eq!(entries_of(&[2, 2, 3, 4, 1, 6, 7]), Err(Order));
    assert_eq!(log_of(&[2, 3, 4, 1, 6, 7]), Err(Order));
    // It is held against the one before, not against the first.
    assert_eq!(log_of(&[2, 3, 4, 9, 6, 7, 8, 0, 0]), Err(Order));
    // Lengths and turns may fall.
    both(&[2, 2, 3, 4, 2, 0, 0], &[2, 3, 4, 2, 0, 0]);
}

#[test]
fn the_reader_judges_from_the_front() {
    // 17 as soon as a start is read: before what is behind it, after what is before it.
    assert_eq!(entries_of(&[2, 2, 3, 4, 1]), Err(Order));
    assert_eq!(entries_of(&[2, 2, 3, 4, 1, 0x80, 0x00, 7]), Err(Order));
    assert_eq!(entries_of(&[2, 2, 3, 4, 1, 6, 7, 9]), Err(Order));
    assert_eq!(entries_of(&[2, 2, 3, 4, 0x81, 0x00, 6, 7]), Err(Number));
    assert_eq!(entries_of(&[2, 2, 0x83, 0x00, 4, 1, 6, 7]), Err(Number));
    // Leftovers next, its output last.
    assert_eq!(entries_of(&[0, 0]), Err(Length));
    assert_eq!(entries_of(&[1, 2, 3, 4, 0x80]), Err(Length));
    assert_eq!(read_to(&[1, 2, 3, 0x84, 0x00], 0), Err(Number));
    assert_eq!(read_to(&[2, 2, 3, 4, 1, 6, 7], 0), Err(Order));
}

#[test]
fn the_reader_judges_the_size_first() {
    let mut log = vec![0; SIZE_MAX + 1];
    assert_eq!(entries_of(&log), Err(Length));
    log[0] = 0x80;
    assert_eq!(entries_of(&log), Err(Length));
    assert_eq!(entries_of(&log[..SIZE_MAX]), Err(Number));
    log[..5].copy_from_slice(&[2, 2, 3, 4, 1]);
    assert_eq!(entries_of(&log), Err(Length));
    assert_eq!(entries_of(&log[..SIZE_MAX]), Err(Order));
}

#[test]
fn the_writer_judges_threes_then_entries_then_size_then_output() {
    assert_eq!(log_of(&[2]), Err(Length));
    assert_eq!(log_of(&[2, 3]), Err(Length));
    assert_eq!(log_of(&[2, 3, 4, 1]), Err(Length));
    assert_eq!(log_of(&[2, 3, 4, 1, 6, 7, 8]), Err(Length));
    let mut entries = vec![7; NUMBERS * 2000];
    assert_eq!(log_of(&entries), Err(Length));
    entries[NUMBERS * 1999] = 6;
    assert_eq!(log_of(&entries), Err(Order));
    assert_eq!(written_to(&entries[NUMBERS * 1998..], 0), Err(Order));
}

#[test]
fn a_log_has_at_most_4096_bytes() {
    let log = |more: usize| {
        let plain = NUMBERS * 1364 - more;
        let bytes = [&[0xD4, 0x0A][..], &vec![7; plain], &[0x87, 0x01].repeat(more)].concat();
        (bytes, [vec![7; plain], vec![0x87; more]].concat())
    };
    for more in 0..=2 {
        let (log, entries) = log(more);
        assert_eq!(log.len(), 4094 + more);
        both(&log, &entries);
    }
    let (log, entries) = log(3);
    assert_eq!((entries_of(&log), log_of(&entries)), (Err(Length), Err(Length)));
    assert_eq!(log_of(&[7; NUMBERS * 1365]), Err(Length));
}
