//! The log of winding runs: a value in which each run has a start minute, a length in seconds and
//! weight turns.

use crate::partition::narrow;
use crate::refusal::Refusal;

extern "C" {
    fn feqyondil_run_log_read(
        log: *const u8,
        log_len: usize,
        entries: *mut u32,
        entries_len: usize,
        count: *mut [u64; 1],
    ) -> u32;
    fn feqyondil_run_log_write(
        entries: *const u32,
        entries_len: usize,
        log: *mut u8,
        log_len: usize,
        length: *mut [u64; 1],
    ) -> u32;
}

/// Numbers of an entry, which stand in a row.
pub const RUN_NUMBERS: usize = 3;
/// Place of the start minute among them.
pub const RUN_START: usize = 0;
/// Of the run's length in seconds.
pub const RUN_SECONDS: usize = 1;
/// Of the weight turns.
pub const RUN_TURNS: usize = 2;

/// Reads a log: puts [`RUN_NUMBERS`] numbers in a row for each entry to the front of `entries`, and
/// answers how many entries there are. Numbers of `entries` behind them stay. Those of
/// [`RUN_LOG_ENTRIES_MAX`](crate::RUN_LOG_ENTRIES_MAX) entries are room for any log.
///
/// Refusals: LogLength where the log is over [`RUN_LOG_MAX`](crate::RUN_LOG_MAX) bytes; then, from
/// the front, LogNumber for a number that is cut off, not in its shortest form or 2^32 and more, and
/// LogOrder as soon as a start minute is read that is below the one before; then LogLength for bytes
/// left over, and LogLength where `entries` is too short. Each leaves `entries` as they were.
pub fn run_log_read(log: &[u8], entries: &mut [u32]) -> Result<usize, Refusal> {
    let mut count = [u64::MAX];
    let (log, log_len) = (log.as_ptr(), log.len());
    let (to, len) = (entries.as_mut_ptr(), entries.len());
    // SAFETY: each pointer and length are those of a live slice; `entries` is lent for writing, so
    // apart from `log`, which is only read; the array is live, ours alone, and of the length that
    // the library writes.
    let number = unsafe { feqyondil_run_log_read(log, log_len, to, len, &mut count) };
    told(number, count, len / RUN_NUMBERS)
}

/// Writes the log of `entries`, [`RUN_NUMBERS`] numbers in a row for each, to the front of `log`,
/// and answers how many bytes it takes. Bytes of `log` behind them stay;
/// [`RUN_LOG_MAX`](crate::RUN_LOG_MAX) are room for any log. What was written reads back as the same
/// entries, and what was read writes back as the same bytes.
///
/// Refusals: LogLength where the numbers don't come in threes; LogOrder where a start minute is
/// below the one before; LogLength where the log would be over `RUN_LOG_MAX` bytes, and LogLength
/// where `log` is too short for it. Each leaves `log` as it was.
pub fn run_log_write(entries: &[u32], log: &mut [u8]) -> Result<usize, Refusal> {
    let mut length = [u64::MAX];
    let (entries, entries_len) = (entries.as_ptr(), entries.len());
    let (to, len) = (log.as_mut_ptr(), log.len());
    // SAFETY: as above; here `log` is lent for writing, and `entries` are only read.
    let number = unsafe { feqyondil_run_log_write(entries, entries_len, to, len, &mut length) };
    told(number, length, len)
}

/// An answer that the library does not promise is a fault of its own, and ends the program. `most`
/// is what there was room for.
fn told(number: u32, answer: [u64; 1], most: usize) -> Result<usize, Refusal> {
    match (Refusal::check(number), answer) {
        (Ok(()), [count]) if count <= most as u64 => Ok(narrow(count)),
        (Err(refusal), [0]) => Err(refusal),
        _ => panic!("the library answered {number} with {answer:?}, with room for {most}"),
    }
}

#[cfg(test)]
mod tests;
