//! Numbers at every boundary, each refusal, which of several is answered, and what stays.

use std::vec;
use std::vec::Vec;

use super::*;
use crate::{RUN_LOG_ENTRIES_MAX, RUN_LOG_MAX};

/// What outputs hold before a call.
const BEFORE: u32 = 0xA5A5_A5A5;

/// The entries, in an output that has room for any; behind them and after a refusal it stays.
fn read(log: &[u8]) -> Result<Vec<u32>, Refusal> {
    let mut out = vec![BEFORE; RUN_NUMBERS * RUN_LOG_ENTRIES_MAX];
    let count = run_log_read(log, &mut out);
    let rest = out.split_off(RUN_NUMBERS * count.unwrap_or(0));
    assert!(rest.iter().all(|&number| number == BEFORE), "{log:02x?}");
    count.map(|_| out)
}

/// The log, in the same way.
fn written(entries: &[u32]) -> Result<Vec<u8>, Refusal> {
    let mut out = vec![BEFORE as u8; RUN_LOG_MAX];
    let length = run_log_write(entries, &mut out);
    let rest = out.split_off(length.unwrap_or(0));
    assert!(rest.iter().all(|&byte| byte == BEFORE as u8), "{entries:?}");
    length.map(|_| out)
}

/// Both calls go from one to the other, also with an output that just has room; with less they are
/// refused.
fn both(log: &[u8], entries: &[u32]) {
    assert_eq!((read(log), written(entries)), (Ok(entries.to_vec()), Ok(log.to_vec())));
    let (mut numbers, mut bytes) = (vec![BEFORE; entries.len()], vec![BEFORE as u8; log.len()]);
    for less in 1..=entries.len().min(RUN_NUMBERS) {
        let short = &mut numbers[less..];
        assert_eq!(run_log_read(log, short), Err(Refusal::LogLength), "{less} less");
        assert!(short.iter().all(|&number| number == BEFORE));
    }
    assert_eq!(run_log_write(entries, &mut bytes[1..]), Err(Refusal::LogLength));
    assert!(bytes.iter().all(|&byte| byte == BEFORE as u8));
    assert_eq!(run_log_read(log, &mut numbers), Ok(entries.len() / RUN_NUMBERS));
    assert_eq!(run_log_write(entries, &mut bytes), Ok(log.len()));
    assert_eq!((&numbers[..], &bytes[..]), (entries, log));
}

/// The boundaries of the groups, and the bytes of each.
const NUMBERS: [(u32, &[u8]); 11] = [
    (0, &[0]),
    (1, &[1]),
    ((1 << 7) - 1, &[0x7F]),
    (1 << 7, &[0x80, 1]),
    ((1 << 14) - 1, &[0xFF, 0x7F]),
    (1 << 14, &[0x80, 0x80, 1]),
    ((1 << 21) - 1, &[0xFF, 0xFF, 0x7F]),
    (1 << 21, &[0x80, 0x80, 0x80, 1]),
    ((1 << 28) - 1, &[0xFF, 0xFF, 0xFF, 0x7F]),
    (1 << 28, &[0x80, 0x80, 0x80, 0x80, 1]),
    (u32::MAX, &[0xFF, 0xFF, 0xFF, 0xFF, 0x0F]),
];

#[test]
fn numbers_at_every_boundary_go_both_ways() {
    both(&[0], &[]);
    for (number, bytes) in NUMBERS {
        for place in [RUN_START, RUN_SECONDS, RUN_TURNS] {
            let mut entry = [7; RUN_NUMBERS];
            entry[place] = number;
            let mut groups: [&[u8]; 4] = [&[1], &[7], &[7], &[7]];
            groups[1 + place] = bytes;
            both(&groups.concat(), &entry);
        }
    }
    // All of them, of which each start is the one before or more.
    let entries: Vec<u32> = NUMBERS.iter().flat_map(|&(number, _)| [number; 3]).collect();
    let groups = NUMBERS.iter().flat_map(|&(_, bytes)| [bytes; 3]);
    let log = [&[NUMBERS.len() as u8][..]].into_iter().chain(groups).collect::<Vec<_>>().concat();
    both(&log, &entries);
}

#[test]
fn a_number_that_is_none_is_refused() {
    let none: [&[u8]; 9] = [
        &[],
        &[0x80],
        &[0xFF, 0xFF, 0xFF, 0xFF],
        &[0x80, 0],
        &[0xFF, 0],
        &[0xFF, 0xFF, 0xFF, 0xFF, 0],
        &[0x80, 0x80, 0x80, 0x80, 0x10],
        &[0xFF, 0xFF, 0xFF, 0xFF, 0x7F],
        &[0x80, 0x80, 0x80, 0x80, 0x80, 0],
    ];
    for bytes in none {
        for before in [&[][..], &[1], &[1, 7], &[1, 7, 7], &[2, 7, 7, 7, 7, 7]] {
            let log = [before, bytes].concat();
            assert_eq!(read(&log), Err(Refusal::LogNumber), "{log:02x?}");
        }
    }
}

#[test]
fn a_start_may_stay_and_not_fall() {
    both(&[2, 7, 0, 0, 7, 0, 0], &[7, 0, 0, 7, 0, 0]);
    assert_eq!(read(&[2, 7, 0, 0, 6, 0, 0]), Err(Refusal::LogOrder));
    assert_eq!(written(&[7, 0, 0, 6, 0, 0]), Err(Refusal::LogOrder));
    // As soon as it is read, and not before.
    assert_eq!(read(&[2, 7, 0, 0, 6]), Err(Refusal::LogOrder));
    assert_eq!(read(&[2, 7, 0, 0, 6, 0x80, 0]), Err(Refusal::LogOrder));
    assert_eq!(read(&[2, 7, 0, 0, 0x86, 0]), Err(Refusal::LogNumber));
    assert_eq!(read(&[2, 7, 0x80, 0, 6]), Err(Refusal::LogNumber));
}

#[test]
fn all_bytes_are_the_logs() {
    assert_eq!(read(&[0, 0]), Err(Refusal::LogLength));
    assert_eq!(read(&[1, 7, 7, 7, 7]), Err(Refusal::LogLength));
    assert_eq!(read(&[1, 7, 7, 0x80, 0, 7]), Err(Refusal::LogNumber));
}

#[test]
fn numbers_come_in_threes() {
    for more in 1..RUN_NUMBERS {
        assert_eq!(written(&vec![0; more]), Err(Refusal::LogLength));
        // Before a start that falls.
        let falls = [7, 0, 0, 6, 0, 0, 6, 0];
        assert_eq!(written(&falls[..6 + more]), Err(Refusal::LogLength));
    }
}

/// 1,364 entries, of which so many numbers at the end take two bytes in place of one.
fn longest(more: usize) -> (Vec<u8>, Vec<u32>) {
    let plain = RUN_NUMBERS * RUN_LOG_ENTRIES_MAX - more;
    let log = [&[0xD4, 0x0A][..], &vec![0; plain], &[0x80, 1].repeat(more)].concat();
    let entries = [vec![0; plain], vec![128; more]].concat();
    (log, entries)
}

#[test]
fn a_log_has_4096_bytes_at_most() {
    for more in 0..=2 {
        let (log, entries) = longest(more);
        assert_eq!(log.len(), RUN_LOG_MAX - 2 + more);
        both(&log, &entries);
    }
    let (mut log, entries) = longest(3);
    assert_eq!((read(&log), written(&entries)), (Err(Refusal::LogLength), Err(Refusal::LogLength)));
    // The size comes before the count, which is in no shortest form then.
    log[1] = 0;
    assert_eq!(read(&log), Err(Refusal::LogLength));
    assert_eq!(read(&log[..RUN_LOG_MAX]), Err(Refusal::LogNumber));
    let entries = vec![0; RUN_NUMBERS * (RUN_LOG_ENTRIES_MAX + 1)];
    assert_eq!(written(&entries), Err(Refusal::LogLength));
}

#[test]
fn a_start_that_falls_comes_before_the_size() {
    let mut entries = vec![7; RUN_NUMBERS * (RUN_LOG_ENTRIES_MAX + 1)];
    assert_eq!(written(&entries), Err(Refusal::LogLength));
    entries[RUN_NUMBERS * RUN_LOG_ENTRIES_MAX] = 6;
    assert_eq!(written(&entries), Err(Refusal::LogOrder));
}

#[test]
#[should_panic(expected = "the library answered 16 with [1], with room for 2")]
fn a_refusal_with_a_count_is_a_fault() {
    let _ = told(16, [1], 2);
}

#[test]
#[should_panic(expected = "the library answered 0 with [3], with room for 2")]
fn more_than_there_is_room_for_is_a_fault() {
    let _ = told(0, [3], 2);
}
