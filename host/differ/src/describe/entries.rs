//! Entries of a log of winding runs, in few words.

use proptest::prelude::*;
use proptest::sample::select;
use run_log::NUMBERS;

use super::list::list;

/// About those from which on a number has a group more, and the largest.
#[rustfmt::skip]
pub const BOUNDARIES: [u32; 16] = [
    0, 1, 2, (1 << 7) - 1, 1 << 7, (1 << 7) + 1, (1 << 14) - 1, 1 << 14, (1 << 14) + 1,
    (1 << 21) - 1, 1 << 21, (1 << 21) + 1, (1 << 28) - 1, 1 << 28, (1 << 28) + 1, u32::MAX,
];
/// The least number of two groups, of three, of four and of five.
const LEAST: [u32; 4] = [1 << 7, 1 << 14, 1 << 21, 1 << 28];

/// How far the start is behind the one before it, then seconds and turns.
pub type Entry = [u32; NUMBERS];

/// A few, many plain ones, and a few more; starts stop at 2^32 - 1, and fall where that is said.
#[derive(Clone, Debug, Default, PartialEq)]
pub struct Entries {
    pub front: Vec<Entry>,
    pub fill: Fill,
    pub back: Vec<Entry>,
    pub falls: Vec<Fall>,
    /// So many numbers more or less at the end.
    pub more: isize,
}

/// Entries of the same start, no seconds and no turns.
#[derive(Clone, Copy, Debug, Default, PartialEq)]
pub enum Fill {
    #[default]
    None,
    /// As many as make so many entries of all.
    Count(usize),
    /// As many as make a log of so many bytes; the last one has larger numbers, so that it is met.
    Size(usize),
}

/// The start of an entry becomes so much less than the one before it.
#[derive(Clone, Copy, Debug, PartialEq)]
pub struct Fall(pub At, pub u32);

/// Counted from either end, and from there again behind the other.
#[derive(Clone, Copy, Debug, PartialEq)]
pub enum At {
    Front(usize),
    Back(usize),
}

impl At {
    /// Of so many; none where there is nothing.
    pub fn of(self, len: usize) -> Option<usize> {
        match self {
            _ if len == 0 => None,
            At::Front(at) => Some(at % len),
            At::Back(at) => Some(len - 1 - at % len),
        }
    }
}

/// So many groups a number has in its shortest form.
fn groups(number: u32) -> usize {
    1 + LEAST.iter().filter(|&&least| number >= least).count()
}

/// The bytes of these numbers.
fn bytes(numbers: &[u32]) -> usize {
    numbers.iter().map(|&number| groups(number)).sum()
}

impl Entries {
    pub fn made(&self) -> Vec<u32> {
        let mut out = risen(&self.front, 0);
        let start = last_start(&out);
        let back = risen(&self.back, start);
        let filled = self.fill.made(start, &[&out[..], &back].concat());
        out.extend(filled);
        out.extend(back);
        for Fall(place, by) in &self.falls {
            // The first has none before it.
            if let Some(at @ 1..) = place.of(out.len() / NUMBERS) {
                out[NUMBERS * at] = out[NUMBERS * (at - 1)].saturating_sub(*by);
            }
        }
        out.resize((out.len() as isize + self.more).max(0) as usize, 7);
        out
    }
}

/// From a start on.
fn risen(entries: &[Entry], mut start: u32) -> Vec<u32> {
    let mut numbers = Vec::new();
    for &[rise, seconds, turns] in entries {
        start = start.saturating_add(rise);
        numbers.extend([start, seconds, turns]);
    }
    numbers
}

fn last_start(numbers: &[u32]) -> u32 {
    numbers.chunks(NUMBERS).last().map_or(0, |entry| entry[0])
}

impl Fill {
    /// Beside the numbers that there are.
    fn made(self, start: u32, beside: &[u32]) -> Vec<u32> {
        let plain = [start, 0, 0];
        match self {
            Fill::None => Vec::new(),
            Fill::Count(count) => plain.repeat(count.saturating_sub(beside.len() / NUMBERS)),
            Fill::Size(size) => {
                // Their count has two groups.
                let room = size.saturating_sub(2 + bytes(beside));
                let mut filled = plain.repeat(room / bytes(&plain));
                if let [.., seconds, turns] = &mut filled[..] {
                    let more = room % bytes(&plain);
                    *seconds = longer(more.min(LEAST.len()));
                    *turns = longer(more.saturating_sub(LEAST.len()));
                }
                filled
            }
        }
    }
}

/// The least number that has so many groups more than one.
fn longer(more: usize) -> u32 {
    more.checked_sub(1).map_or(0, |at| LEAST[at])
}

/// One that an entry may have, of any number of groups.
pub fn number() -> impl Strategy<Value = u32> {
    prop_oneof![
        3 => 0..=2u32,
        3 => select(&BOUNDARIES[..]),
        2 => (any::<u32>(), 0..32).prop_map(|(number, shift)| number >> shift),
    ]
}

/// Among so many at either end, or any.
pub fn place(few: usize) -> impl Strategy<Value = At> {
    prop_oneof![
        4 => (0..few).prop_map(At::Front),
        3 => (0..few).prop_map(At::Back),
        1 => (0..4_096usize).prop_map(At::Front),
    ]
}

fn fill() -> impl Strategy<Value = Fill> {
    let size = select(&[4_096, 4_097, 4_095, 4_098, 4_100, 5_000][..]);
    let count = select(&[1_364, 1_365, 1_363, 1_366, 127, 128, 1_500, 2_500][..]);
    prop_oneof![
        16 => Just(Fill::None),
        2 => size.prop_map(Fill::Size),
        1 => count.prop_map(Fill::Count),
    ]
}

/// In one of five lists a start falls.
pub fn entries() -> impl Strategy<Value = Entries> {
    let rise = prop_oneof![2 => 0..=2u32, 2 => 0..1_500u32, 1 => number()];
    let entry = || (rise.clone(), number(), number()).prop_map(|(rise, s, t)| [rise, s, t]);
    let by = prop_oneof![2 => Just(1), 1 => number()];
    let fall = (place(6), by).prop_map(|(place, by)| Fall(place, by));
    let falls = prop_oneof![4 => Just(Vec::new()), 1 => list(fall, 2)];
    (fill(), list(entry(), 5), list(entry(), 2), falls)
        .prop_map(|(fill, front, back, falls)| Entries { front, fill, back, falls, more: 0 })
}

#[cfg(test)]
mod tests {
    use super::*;

    #[test]
    fn entries_are_made_as_they_are_described() {
        let mut entries = Entries {
            front: vec![[60, 1, 2], [u32::MAX, 3, 4]],
            fill: Fill::Count(3),
            back: vec![[0, 5, 6]],
            ..Entries::default()
        };
        let last = u32::MAX;
        assert_eq!(entries.made(), [60, 1, 2, last, 3, 4, last, 5, 6]);
        entries.fill = Fill::Count(4);
        entries.falls = vec![Fall(At::Back(0), 1), Fall(At::Front(0), 1)];
        entries.more = -1;
        let filled = [60, 1, 2, last, 3, 4, last, 0, 0, last - 1, 5];
        assert_eq!(entries.made(), filled);
    }

    #[test]
    fn a_size_is_met_from_any_start() {
        for start in BOUNDARIES {
            for size in [4_095, 4_096, 4_097, 5_000] {
                let entry = [start, 1 << 14, 0];
                let fill = Fill::Size(size);
                let entries = Entries { front: vec![entry], fill, ..Entries::default() };
                assert_eq!(2 + bytes(&entries.made()), size, "from {start}");
            }
        }
    }
}
