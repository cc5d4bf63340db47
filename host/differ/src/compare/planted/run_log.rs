//! Faults of the reader and of the writer of a log of winding runs.

use run_log::NUMBERS;

use super::{found, has, is_found};
use crate::compare::run_log::{read, write, Answer, Port, PortCall, Reader, Writer};
use crate::describe::{entries_to_write, log_to_read};

/// A fault, how many bytes or numbers there are at most in what shows it, and words of what is told.
type Row<I, O> = (PortCall<I, O>, u64, &'static [&'static str]);

const READERS: [Row<u8, u32>; 12] = [
    (takes_a_longer_form, 2, &["log: 8000", "N6:   refused by 16\n  port: accepted, 0"]),
    (wraps_at_32_bits, 8, &["N6:   refused by 16\n  port: accepted, "]),
    (refuses_equal_starts, 7, &["N6:   accepted, 2\n  port: refused by 17"]),
    (fills_before_leftovers, 7, &["the output from 0 on\n  N6:   [165, ", "port: [0, "]),
    (fills_as_it_reads, 2, &["the output from 0 on\n  N6:   [165", "port: [0"]),
    (judges_a_start_after_its_entry, 9, &["N6:   refused by 17\n  port: refused by 16"]),
    (judges_the_start_before_its_form, 9, &["N6:   refused by 16\n  port: refused by 17"]),
    (judges_the_size_after_the_count, 5_000, &["N6:   refused by 18\n  port: refused by 16"]),
    (judges_the_output_first, 1, &["N6:   refused by 16\n  port: refused by 18"]),
    (refuses_a_log_of_4096, 4_096, &["N6:   accepted, ", "port: refused by 18"]),
    (refuses_a_just_long_output, 4, &["N6:   accepted, 1\n  port: refused by 18"]),
    (touches_numbers_behind, 1, &["the output from 0 on\n  N6:   [165", "port: [0"]),
];

const WRITERS: [Row<u32, u8>; 8] = [
    (refuses_equal_starts_to_write, 6, &["N6:   accepted, 7\n  port: refused by 17"]),
    (judges_entries_before_threes, 7, &["N6:   refused by 18\n  port: refused by 17"]),
    (judges_the_size_before_entries, 7_500, &["N6:   refused by 17\n  port: refused by 18"]),
    (judges_the_output_before_entries, 6, &["N6:   refused by 17\n  port: refused by 18"]),
    (refuses_to_write_4096, 4_092, &["N6:   accepted, 4096\n  port: refused by 18"]),
    (fills_a_short_output, 3, &["the output from 0 on\n  N6:   [165", "port: [1"]),
    (writes_a_longer_count, 0, &["N6:   accepted, 1\n  port: accepted, 2"]),
    (touches_bytes_behind, 0, &["the output from 1 on\n  N6:   [165", "port: [0"]),
];

#[test]
fn faults_are_found_in_the_reading_of_logs() {
    for (read, most, words) in READERS {
        let reader = Reader { port: Port { read, ..Port::default() } };
        is_found(&reader, log_to_read(false), |input| input.of.made().len() as u64, (most, words));
    }
}

#[test]
fn faults_are_found_in_the_writing_of_logs() {
    for (write, most, words) in WRITERS {
        let writer = Writer { port: Port { write, ..Port::default() } };
        is_found(
            &writer,
            entries_to_write(false),
            |input| input.of.made().len() as u64,
            (most, words),
        );
    }
}

/// A fault of either call shows where it is asked to go back, too.
#[test]
fn what_is_accepted_goes_back() {
    let reader = Reader { port: Port { write: writes_a_longer_count, ..Port::default() } };
    has(&found(&reader, log_to_read(false)).why, &["back again", "port: "]);
    let writer = Writer { port: Port { read: refuses_equal_starts, ..Port::default() } };
    has(&found(&writer, entries_to_write(false)).why, &["back again", "port: refused by 17"]);
}

/// The groups of each number; those of one that is cut off come last.
fn numbers(log: &[u8]) -> impl Iterator<Item = &[u8]> {
    log.split_inclusive(|group| *group < 0x80)
}

/// Of up to nine groups.
fn value(groups: &[u8]) -> u64 {
    let groups = groups.iter().take(9).rev();
    groups.fold(0, |value, group| value << 7 | u64::from(group & 0x7F))
}

fn is_good(groups: &[u8]) -> bool {
    let last = groups.last().copied();
    let shortest = groups.len() == 1 || last > Some(0);
    last < Some(0x80) && shortest && value(groups) >> 32 == 0
}

/// How many bytes the count and so many entries take.
fn said(log: &[u8]) -> usize {
    let count = numbers(log).next().map_or(0, value) as usize;
    numbers(log).take(1 + NUMBERS * count).map(<[u8]>::len).sum()
}

/// Where the first start that falls is among the numbers.
fn falling(log: &[u8]) -> Option<usize> {
    let starts: Vec<u64> = numbers(log).skip(1).step_by(NUMBERS).map(value).collect();
    let at = starts.windows(2).position(|pair| pair[1] < pair[0])?;
    Some(1 + NUMBERS * (at + 1))
}

/// Reads the log with the shortest form of another number for each that has one.
fn read_as(log: &[u8], entries: &mut [u32], number: fn(&[u8]) -> Option<u64>) -> Answer {
    let mut again = Vec::new();
    for groups in numbers(log) {
        match number(groups) {
            Some(mut value) => {
                while value >= 0x80 {
                    again.push(value as u8 | 0x80);
                    value >>= 7;
                }
                again.push(value as u8);
            }
            None => again.extend(groups),
        }
    }
    match log.len() {
        0..=4096 => read(&again, entries),
        _ => read(log, entries),
    }
}

/// The answer with the output as it was before.
fn instead<T: Copy>(output: &mut [T], before: &[T], answer: Answer) -> Answer {
    output.copy_from_slice(before);
    answer
}

fn takes_a_longer_form(log: &[u8], entries: &mut [u32]) -> Answer {
    read_as(log, entries, |groups| Some(value(groups)).filter(|value| value >> 32 == 0))
}

fn wraps_at_32_bits(log: &[u8], entries: &mut [u32]) -> Answer {
    read_as(log, entries, |groups| {
        let large = groups.len() == 5 && groups[4] > 0x0F;
        large.then(|| value(groups) & u64::from(u32::MAX))
    })
}

fn refuses_equal_starts(log: &[u8], entries: &mut [u32]) -> Answer {
    let before = entries.to_vec();
    let count = read(log, entries)?;
    match are_equal(&entries[..NUMBERS * count]) {
        true => instead(entries, &before, Err(17)),
        false => Ok(count),
    }
}

/// Two starts that follow each other.
fn are_equal(entries: &[u32]) -> bool {
    let starts: Vec<u32> = entries.iter().step_by(NUMBERS).copied().collect();
    starts.windows(2).any(|pair| pair[0] == pair[1])
}

fn fills_before_leftovers(log: &[u8], entries: &mut [u32]) -> Answer {
    let answer = read(log, entries);
    if answer == Err(18) && log.len() <= 4096 {
        let _ = read(&log[..said(log)], entries);
    }
    answer
}

fn fills_as_it_reads(log: &[u8], entries: &mut [u32]) -> Answer {
    let answer = read(log, entries);
    let first = numbers(log).nth(1).filter(|groups| is_good(groups));
    if let (Err(16 | 17), Some(groups), Some(entry)) = (answer, first, entries.first_mut()) {
        *entry = value(groups) as u32;
    }
    answer
}

fn judges_a_start_after_its_entry(log: &[u8], entries: &mut [u32]) -> Answer {
    let answer = read(log, entries);
    if let (Err(17), Some(at)) = (answer, falling(log)) {
        let behind = numbers(log).skip(at + 1).take(2);
        if behind.filter(|groups| is_good(groups)).count() < 2 {
            return Err(16);
        }
    }
    answer
}

/// A start of any form is held against the one before it.
fn judges_the_start_before_its_form(log: &[u8], entries: &mut [u32]) -> Answer {
    let answer = read(log, entries);
    if let (Err(16), Some(at)) = (answer, falling(log)) {
        if numbers(log).take(at).all(is_good) {
            return Err(17);
        }
    }
    answer
}

fn judges_the_size_after_the_count(log: &[u8], entries: &mut [u32]) -> Answer {
    match numbers(log).next() {
        Some(count) if !is_good(count) => Err(16),
        _ => read(log, entries),
    }
}

fn judges_the_output_first(log: &[u8], entries: &mut [u32]) -> Answer {
    match entries {
        [] if log != [0] => Err(18),
        _ => read(log, entries),
    }
}

fn refuses_a_log_of_4096(log: &[u8], entries: &mut [u32]) -> Answer {
    let before = entries.to_vec();
    match read(log, entries) {
        Ok(_) if log.len() == 4096 => instead(entries, &before, Err(18)),
        answer => answer,
    }
}

fn refuses_a_just_long_output(log: &[u8], entries: &mut [u32]) -> Answer {
    let before = entries.to_vec();
    match read(log, entries) {
        Ok(count @ 1..) if entries.len() == NUMBERS * count => instead(entries, &before, Err(18)),
        answer => answer,
    }
}

fn touches_numbers_behind(log: &[u8], entries: &mut [u32]) -> Answer {
    let count = read(log, entries)?;
    entries[NUMBERS * count..].iter_mut().take(1).for_each(|number| *number = 0);
    Ok(count)
}

fn refuses_equal_starts_to_write(entries: &[u32], log: &mut [u8]) -> Answer {
    match entries.len() % NUMBERS {
        0 if are_equal(entries) => Err(17),
        _ => write(entries, log),
    }
}

fn judges_entries_before_threes(entries: &[u32], log: &mut [u8]) -> Answer {
    write(&entries[..entries.len() / NUMBERS * NUMBERS], &mut log.to_vec())?;
    write(entries, log)
}

/// As soon as there are more numbers than a log has bytes.
fn judges_the_size_before_entries(entries: &[u32], log: &mut [u8]) -> Answer {
    match entries.len() {
        0..=4095 => write(entries, log),
        _ => Err(18),
    }
}

fn judges_the_output_before_entries(entries: &[u32], log: &mut [u8]) -> Answer {
    match log {
        [] => Err(18),
        _ => write(entries, log),
    }
}

fn refuses_to_write_4096(entries: &[u32], log: &mut [u8]) -> Answer {
    let before = log.to_vec();
    match write(entries, log) {
        Ok(4096) => instead(log, &before, Err(18)),
        answer => answer,
    }
}

fn fills_a_short_output(entries: &[u32], log: &mut [u8]) -> Answer {
    let mut room = [0; 4096];
    let answer = write(entries, log);
    if let (Err(18), Ok(_)) = (answer, write(entries, &mut room)) {
        log.copy_from_slice(&room[..log.len()]);
    }
    answer
}

fn writes_a_longer_count(entries: &[u32], log: &mut [u8]) -> Answer {
    let length = write(entries, log)?;
    if length < log.len() && log[0] < 0x80 {
        log.copy_within(1..length, 2);
        log[0] |= 0x80;
        log[1] = 0;
        return Ok(length + 1);
    }
    Ok(length)
}

fn touches_bytes_behind(entries: &[u32], log: &mut [u8]) -> Answer {
    let length = write(entries, log)?;
    log[length..].iter_mut().take(1).for_each(|byte| *byte = 0);
    Ok(length)
}
