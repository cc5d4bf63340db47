//! The log of winding runs, from N6's words, by no code of the port.
//!
//! `differ` holds the port against it and `bench` times the port beside it, so it is to be quick
//! too. Either call goes twice over what it is lent: first all is judged, then the output is filled.
//! Numbers are unsigned LEB128.

use std::slice::Iter;

/// Most bytes of a log.
pub const SIZE_MAX: usize = 4096;
/// Numbers of an entry: start minute, length in seconds, weight turns.
pub const NUMBERS: usize = 3;

/// The top bit, set on all groups but the last.
const MORE: u8 = 0x80;
/// Bits of a group, and where each group of a number stands.
const BITS: u32 = 7;
const SHIFTS: [u32; 5] = [0, BITS, 2 * BITS, 3 * BITS, 4 * BITS];
/// What is left of 32 bits for the last of five groups.
const LAST_MAX: u8 = 0x0F;

/// N6's checks.
#[derive(Clone, Copy, Debug, Eq, PartialEq)]
pub enum Refusal {
    /// A number cut off, not shortest or too large.
    Number = 16,
    /// Start minutes that fall.
    Order = 17,
    /// Bytes left over, numbers that don't come in threes, a log over 4,096, or an output too short
    /// for the result.
    Length = 18,
}

/// The count of entries, whose numbers go to the front of `entries`.
pub fn read(log: &[u8], entries: &mut [u32]) -> Result<usize, Refusal> {
    let count = count(log)?;
    let room = entries.get_mut(..NUMBERS * count).ok_or(Refusal::Length)?;
    decode(log, room);
    Ok(count)
}

/// The reader's first pass: judges all but the output.
pub fn count(log: &[u8]) -> Result<usize, Refusal> {
    if log.len() > SIZE_MAX {
        return Err(Refusal::Length);
    }
    let mut bytes = log.iter();
    let count = judged(&mut bytes)?;
    let mut last = 0;
    for _ in 0..count {
        let start = judged(&mut bytes)?;
        if start < last {
            return Err(Refusal::Order);
        }
        last = start;
        let _seconds = judged(&mut bytes)?;
        let _turns = judged(&mut bytes)?;
    }
    match bytes.next() {
        None => Ok(count as usize),
        Some(_) => Err(Refusal::Length),
    }
}

/// The next number, which is to be in its shortest form and below 2^32.
#[inline]
fn judged(bytes: &mut Iter<u8>) -> Result<u32, Refusal> {
    let mut number = 0;
    for shift in SHIFTS {
        let byte = *bytes.next().ok_or(Refusal::Number)?;
        number |= u32::from(byte & !MORE) << shift;
        if byte & MORE == 0 {
            let longer = shift > 0 && byte == 0;
            let too_large = shift == 4 * BITS && byte > LAST_MAX;
            return if longer || too_large { Err(Refusal::Number) } else { Ok(number) };
        }
    }
    Err(Refusal::Number)
}

/// The reader's second pass, without a check: fills `entries` from a log that has so many numbers.
pub fn decode(log: &[u8], entries: &mut [u32]) {
    let mut bytes = log.iter();
    let _count = next(&mut bytes);
    entries.iter_mut().for_each(|number| *number = next(&mut bytes));
}

#[inline]
fn next(bytes: &mut Iter<u8>) -> u32 {
    let mut number = 0;
    for (shift, &byte) in SHIFTS.into_iter().zip(bytes) {
        number |= u32::from(byte & !MORE) << shift;
        if byte & MORE == 0 {
            break;
        }
    }
    number
}

/// The log's length; the log goes to the front of `log`.
pub fn write(entries: &[u32], log: &mut [u8]) -> Result<usize, Refusal> {
    let size = size(entries)?;
    let room = log.get_mut(..size).ok_or(Refusal::Length)?;
    Ok(encode(entries, room))
}

/// The writer's first pass: judges all but the output, and works the log's length out.
pub fn size(entries: &[u32]) -> Result<usize, Refusal> {
    let threes = entries.chunks_exact(NUMBERS);
    if !threes.remainder().is_empty() {
        return Err(Refusal::Length);
    }
    // A count over 32 bits is of more entries than a log has.
    let (mut size, mut last) = (groups(threes.len() as u32), 0);
    for entry in threes {
        if entry[0] < last {
            return Err(Refusal::Order);
        }
        last = entry[0];
        size += entry.iter().map(|&number| groups(number)).sum::<usize>();
    }
    if size > SIZE_MAX {
        return Err(Refusal::Length);
    }
    Ok(size)
}

/// How many groups a number has in its shortest form.
#[inline]
fn groups(number: u32) -> usize {
    match number {
        0..=0x7F => 1,
        0x80..=0x3FFF => 2,
        0x4000..=0x1F_FFFF => 3,
        0x20_0000..=0xFFF_FFFF => 4,
        0x1000_0000.. => 5,
    }
}

/// The writer's second pass, without a check: answers the length of the log, for which there is room.
pub fn encode(entries: &[u32], log: &mut [u8]) -> usize {
    let count = (entries.len() / NUMBERS) as u32;
    let mut at = put(log, 0, count);
    for &number in entries {
        at = put(log, at, number);
    }
    at
}

/// Puts a number's groups from `at` on, and answers where they end.
#[inline]
fn put(log: &mut [u8], mut at: usize, mut number: u32) -> usize {
    while number >= u32::from(MORE) {
        log[at] = number as u8 | MORE;
        number >>= BITS;
        at += 1;
    }
    log[at] = number as u8;
    at + 1
}

#[cfg(test)]
mod tests;
