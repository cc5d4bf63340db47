//! Logs and entries of each kind, about the boundaries of each check: what they are counted as, and
//! what is to be answered.

use super::Answer;
use crate::describe::{
    At, ByteDamage, Bytes, Entries, Fall, Fill, Log, NumberDamage, WithOutput, BOUNDARIES, NO_ROOM,
    TELLING,
};

pub type Row<T> = (&'static str, Answer, WithOutput<T>);

const CUT_OFF: &str = "refused with 16 for a number cut off";
const NOT_SHORTEST: &str = "with 16 for one not shortest";
const TOO_LARGE: &str = "with 16 for one too large";
const LEFT_OVER: &str = "with 18 for bytes left over";
const SIZE: &str = "with 18 for the size";
const OUTPUT: &str = "with 18 for the output";

/// Of five groups and of more.
const LARGE: [u64; 5] = [1 << 32, (1 << 32) + 1, (1 << 35) - 1, 1 << 35, u64::MAX];
/// Outputs that are too short, and longer than they need to be.
const SHORT: [isize; 4] = [-1, -2, -3, NO_ROOM];
const LONG: [isize; 4] = [1, 2, 3, 1000];

/// Up to five telling bytes for the count, and for each number of a log of one entry.
pub fn numbers() -> impl Iterator<Item = Log> {
    let of = |len: u32| (0..TELLING.len().pow(len)).map(move |n| digits(n, len));
    (0..=5).flat_map(of).flat_map(|number| {
        [0, 1, 2, 3].map(|place| {
            let mut log = vec![1, 2, 3, 4];
            log.splice(place..=place, number.iter().copied());
            Log::Bytes(Bytes::Of(log))
        })
    })
}

/// So many telling bytes, by the digits of a number.
fn digits(n: usize, len: u32) -> Vec<u8> {
    let base = TELLING.len();
    (0..len).map(|i| TELLING[n / base.pow(i) % base]).collect()
}

/// One entry with a number at this place, 0 for the start.
fn one(place: usize, number: u32) -> Entries {
    let mut entry = [7; 3];
    entry[place] = number;
    Entries { front: vec![entry], ..Entries::default() }
}

/// Two entries of the same start.
fn two() -> Entries {
    Entries { front: vec![[7, 7, 7], [0, 7, 7]], ..Entries::default() }
}

fn filled(fill: Fill) -> Entries {
    Entries { fill, ..Entries::default() }
}

/// The last start falls.
fn falling(entries: Entries) -> Entries {
    Entries { falls: vec![Fall(At::Back(0), 1)], ..entries }
}

fn filled_falling(fill: Fill) -> Entries {
    falling(Entries { fill, ..one(0, 7) })
}

fn row<T>(name: &'static str, answer: Answer, of: T) -> Row<T> {
    (name, answer, WithOutput::of(of))
}

/// With each of these outputs.
fn with_output<T: Clone>(
    name: &'static str,
    answer: Answer,
    of: T,
    rooms: [isize; 4],
) -> [Row<T>; 4] {
    rooms.map(|room| (name, answer, WithOutput { room, ..WithOutput::of(of.clone()) }))
}

fn plain(entries: Entries) -> Log {
    Log::Entries(entries, Vec::new(), Vec::new())
}

/// With a damage of its numbers.
fn with(entries: Entries, damage: NumberDamage) -> Log {
    Log::Entries(entries, vec![damage], Vec::new())
}

/// With one of its bytes.
fn but(entries: Entries, damage: ByteDamage) -> Log {
    Log::Entries(entries, Vec::new(), vec![damage])
}

fn longer(place: usize, zeros: usize) -> NumberDamage {
    NumberDamage::Longer(At::Front(place), zeros)
}

fn behind(len: usize, byte: u8) -> ByteDamage {
    ByteDamage::Behind(Bytes::Fill(len, byte))
}

pub fn logs() -> Vec<Row<Log>> {
    [accepted_logs(), of_numbers(), of_order(), of_length()].concat()
}

fn accepted_logs() -> Vec<Row<Log>> {
    let mut rows = vec![
        row("accepted", Ok(0), plain(Entries::default())),
        row("accepted", Ok(127), plain(filled(Fill::Count(127)))),
        row("accepted", Ok(128), plain(filled(Fill::Count(128)))),
        row("accepted", Ok(1364), plain(filled(Fill::Size(4095)))),
        row("with equal starts", Ok(2), plain(two())),
        row("with a start of 2^28 or more", Ok(1), plain(one(0, u32::MAX))),
        row("of 4,096 bytes", Ok(1364), plain(filled(Fill::Size(4096)))),
        row("of 1,364 entries", Ok(1364), plain(filled(Fill::Count(1364)))),
    ];
    for number in BOUNDARIES {
        rows.extend([0, 1, 2].map(|place| row("accepted", Ok(1), plain(one(place, number)))));
    }
    rows.extend(with_output("with more output", Ok(2), plain(two()), LONG));
    rows
}

/// Each way at each place, of which the count's is 0.
fn of_numbers() -> Vec<Row<Log>> {
    let more = NumberDamage::More(At::Front(0), 1);
    let mut rows = vec![
        row(CUT_OFF, Err(16), Log::Bytes(Bytes::default())),
        row(CUT_OFF, Err(16), with(two(), more)),
        row(NOT_SHORTEST, Err(16), with(two(), longer(0, 1))),
    ];
    for number in BOUNDARIES {
        for place in [0, 1, 2] {
            let one = || one(place, number);
            rows.push(row(CUT_OFF, Err(16), but(one(), ByteDamage::Cut(1))));
            let longer = |zeros| row(NOT_SHORTEST, Err(16), with(one(), longer(place + 1, zeros)));
            rows.extend([1, 2, 3, 4].map(longer));
        }
    }
    for place in [0, 1, 2, 3] {
        let large = |number| with(two(), NumberDamage::Becomes(At::Front(place), number));
        rows.extend(LARGE.map(|number| row(TOO_LARGE, Err(16), large(number))));
    }
    rows
}

/// A start that falls, with what is before and behind it.
fn of_order() -> Vec<Row<Log>> {
    let falls = || falling(two());
    let mut rows = vec![
        row("with 17", Err(17), plain(falls())),
        row("with 17", Err(17), plain(filled_falling(Fill::Count(1364)))),
        row("with 17 before 16", Err(17), but(falls(), ByteDamage::Cut(2))),
        row("with 17 before 18", Err(17), but(falls(), behind(1, 0))),
        row("with 18 before 17", Err(18), plain(filled_falling(Fill::Size(4097)))),
    ];
    rows.extend(with_output("with 17 before 18", Err(17), plain(falls()), [-9, -8, -7, NO_ROOM]));
    // The fourth number behind the count is the second start.
    let with_longer =
        |name, answer| move |place| row(name, answer, with(falls(), longer(place, 1)));
    rows.extend([1, 2, 3, 4].map(with_longer("with 16 before 17", Err(16))));
    rows.extend([5, 6].map(with_longer("with 17 before 16", Err(17))));
    rows
}

fn of_length() -> Vec<Row<Log>> {
    let fewer = NumberDamage::More(At::Front(0), -1);
    let bad_and_more = Log::Entries(two(), vec![longer(6, 1)], vec![behind(1, 0)]);
    let mut rows = vec![
        row(SIZE, Err(18), plain(filled(Fill::Size(4097)))),
        row(SIZE, Err(18), plain(filled(Fill::Size(9000)))),
        row(SIZE, Err(18), plain(filled(Fill::Count(1365)))),
        row("with 18 before 16", Err(18), with(filled(Fill::Size(4096)), longer(0, 1))),
        row(NOT_SHORTEST, Err(16), with(filled(Fill::Size(4095)), longer(0, 1))),
        row("with 16 before 18", Err(16), bad_and_more),
        row(LEFT_OVER, Err(18), with(two(), fewer)),
        row(LEFT_OVER, Err(18), but(Entries::default(), behind(4095, 0))),
    ];
    rows.extend([0, 0x80].map(|byte| row(LEFT_OVER, Err(18), but(two(), behind(1, byte)))));
    rows.extend(with_output(OUTPUT, Err(18), plain(two()), SHORT));
    rows.extend(with_output(OUTPUT, Err(18), plain(filled(Fill::Count(1364))), SHORT));
    rows
}

pub fn entries() -> Vec<Row<Entries>> {
    let mut rows = vec![
        row("accepted", Ok(1), Entries::default()),
        row("accepted", Ok(1 + 3 * 127), filled(Fill::Count(127))),
        row("accepted", Ok(2 + 3 * 128), filled(Fill::Count(128))),
        row("accepted", Ok(4095), filled(Fill::Size(4095))),
        row("with equal starts", Ok(7), two()),
        row("with a start of 2^28 or more", Ok(8), one(0, u32::MAX)),
        row("of 4,096 bytes", Ok(4096), filled(Fill::Size(4096))),
        row("of 1,364 entries", Ok(4094), filled(Fill::Count(1364))),
        row("with 17", Err(17), falling(two())),
        row("with 17", Err(17), filled_falling(Fill::Count(1364))),
        row("with 17 before 18", Err(17), filled_falling(Fill::Size(4097))),
        row("with 17 before 18", Err(17), filled_falling(Fill::Count(20_000))),
    ];
    let over = [Fill::Size(4097), Fill::Count(1365), Fill::Count(20_000)];
    rows.extend(over.map(|fill| row(SIZE, Err(18), filled(fill))));
    for (at, number) in BOUNDARIES.into_iter().enumerate() {
        // The first has one group, and behind it three boundaries each have as many.
        let length = 4 + at.saturating_sub(1) / 3;
        rows.extend([0, 1, 2].map(|place| row("accepted", Ok(length), one(place, number))));
    }
    for more in [1, 2, -1, -2] {
        rows.push(row("refused with 18 for threes", Err(18), Entries { more, ..two() }));
        rows.push(row("with 18 before 17", Err(18), Entries { more, ..falling(two()) }));
    }
    rows.extend(with_output(OUTPUT, Err(18), two(), SHORT));
    rows.extend(with_output("with more output", Ok(7), two(), LONG));
    rows
}
