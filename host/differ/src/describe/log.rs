//! Logs of winding runs: the numbers of entries, what was done to them, and what was done to their
//! bytes; or bytes that never were one.

use std::fmt::Debug;

use proptest::collection::vec;
use proptest::prelude::*;
use proptest::sample::select;
use run_log::NUMBERS;

use super::bytes::{content, Bytes};
use super::entries::{self, entries, place, At, Entries};
use super::list::list;
use super::run::standing;
use crate::store::lent::Standing;

/// So much less output than a result takes that there is none.
pub const NO_ROOM: isize = -100_000;
/// Bytes at which a check changes its mind.
pub const TELLING: [u8; 9] = [0x00, 0x01, 0x02, 0x0F, 0x10, 0x7F, 0x80, 0x81, 0xFF];

/// A log or entries, and how they and the output are lent.
#[derive(Clone, Debug, PartialEq)]
pub struct WithOutput<T> {
    pub of: T,
    /// So much more or less output than the result takes.
    pub room: isize,
    pub standing: [Standing; 2],
}

impl<T> WithOutput<T> {
    /// With just the output that it takes.
    pub fn of(of: T) -> Self {
        WithOutput { of, room: 0, standing: [Standing::Guarded(0); 2] }
    }

    /// How much output is lent, where the result takes so much.
    pub fn output(&self, takes: usize) -> usize {
        (takes as isize + self.room).max(0) as usize
    }
}

#[derive(Clone, Debug, PartialEq)]
pub enum Log {
    /// The count comes first among their numbers.
    Entries(Entries, Vec<NumberDamage>, Vec<ByteDamage>),
    Bytes(Bytes),
}

#[derive(Clone, Copy, Debug, PartialEq)]
pub enum NumberDamage {
    /// It gets so many groups of 0 behind its shortest form.
    Longer(At, usize),
    /// It becomes another.
    Becomes(At, u64),
    /// So much more or less.
    More(At, i64),
}

#[derive(Clone, Debug, PartialEq)]
pub enum ByteDamage {
    Flip(At, u8),
    Becomes(At, u8),
    In(At, u8),
    Out(At),
    /// So many are cut off at the end.
    Cut(usize),
    Behind(Bytes),
}

/// A number, with so many groups of 0 behind its shortest form.
#[derive(Clone, Copy)]
struct Number {
    value: u64,
    zeros: usize,
}

impl Number {
    fn put(self, out: &mut Vec<u8>) {
        let mut value = self.value;
        while value >= 0x80 {
            out.push(value as u8 | 0x80);
            value >>= 7;
        }
        match self.zeros {
            0 => out.push(value as u8),
            zeros => {
                out.push(value as u8 | 0x80);
                out.resize(out.len() + zeros - 1, 0x80);
                out.push(0);
            }
        }
    }
}

impl Log {
    pub fn made(&self) -> Vec<u8> {
        let (entries, of_numbers, of_bytes) = match self {
            Log::Entries(entries, of_numbers, of_bytes) => (entries.made(), of_numbers, of_bytes),
            Log::Bytes(bytes) => return bytes.made(),
        };
        let count = (entries.len() / NUMBERS) as u64;
        let values = [count].into_iter().chain(entries.into_iter().map(u64::from));
        let mut numbers: Vec<Number> = values.map(|value| Number { value, zeros: 0 }).collect();
        of_numbers.iter().for_each(|damage| damage.apply(&mut numbers));
        let mut out = Vec::new();
        numbers.iter().for_each(|number| number.put(&mut out));
        of_bytes.iter().for_each(|damage| damage.apply(&mut out));
        out
    }
}

impl NumberDamage {
    fn apply(self, numbers: &mut [Number]) {
        let (NumberDamage::Longer(place, _)
        | NumberDamage::Becomes(place, _)
        | NumberDamage::More(place, _)) = self;
        let Some(at) = place.of(numbers.len()) else {
            return;
        };
        let number = &mut numbers[at];
        match self {
            NumberDamage::Longer(_, zeros) => number.zeros = zeros,
            NumberDamage::Becomes(_, value) => number.value = value,
            NumberDamage::More(_, more) => number.value = number.value.saturating_add_signed(more),
        }
    }
}

impl ByteDamage {
    fn apply(&self, bytes: &mut Vec<u8>) {
        let len = bytes.len();
        let at = |place: &At| place.of(len).into_iter();
        match self {
            ByteDamage::Flip(place, bit) => at(place).for_each(|at| bytes[at] ^= 1 << bit),
            ByteDamage::Becomes(place, byte) => at(place).for_each(|at| bytes[at] = *byte),
            ByteDamage::In(place, byte) => at(place).for_each(|at| bytes.insert(at, *byte)),
            ByteDamage::Out(place) => at(place).for_each(|at| _ = bytes.remove(at)),
            ByteDamage::Cut(count) => bytes.truncate(len.saturating_sub(*count)),
            ByteDamage::Behind(more) => bytes.extend(more.made()),
        }
    }
}

/// One of 2^32 and more: of five groups mostly, of which the last is over 15.
fn too_large() -> impl Strategy<Value = u64> {
    let five =
        (16..128u64, entries::number()).prop_map(|(last, low)| last << 28 | u64::from(low >> 4));
    let above = select(&[1 << 32, (1 << 32) + 1, (1 << 35) - 1, 1 << 35, 1 << 63, u64::MAX][..]);
    prop_oneof![1 => five, 1 => above]
}

/// Of the count often, and of entries at either end.
fn number_damage() -> impl Strategy<Value = NumberDamage> {
    let place = || prop_oneof![1 => Just(At::Front(0)), 3 => place(2 * NUMBERS)];
    let becomes = prop_oneof![1 => entries::number().prop_map(u64::from), 2 => too_large()];
    let more = select(&[1, -1, 2, -2, 3, 1 << 32][..]);
    prop_oneof![
        3 => (place(), 1..6usize).prop_map(|(at, zeros)| NumberDamage::Longer(at, zeros)),
        3 => (place(), becomes).prop_map(|(at, value)| NumberDamage::Becomes(at, value)),
        2 => (place(), more).prop_map(|(at, more)| NumberDamage::More(at, more)),
    ]
}

fn byte_damage() -> impl Strategy<Value = ByteDamage> {
    let place = || place(8);
    let byte = || select(&TELLING[..]);
    let few = vec(byte(), 1..4).prop_map(Bytes::Of);
    prop_oneof![
        2 => few.prop_map(ByteDamage::Behind),
        2 => (1..4usize).prop_map(ByteDamage::Cut),
        2 => (place(), byte()).prop_map(|(at, byte)| ByteDamage::Becomes(at, byte)),
        1 => (place(), 0..8u8).prop_map(|(at, bit)| ByteDamage::Flip(at, bit)),
        1 => (place(), byte()).prop_map(|(at, byte)| ByteDamage::In(at, byte)),
        1 => place().prop_map(ByteDamage::Out),
    ]
}

/// Mostly with enough output.
fn lent<T: Debug>(
    of: impl Strategy<Value = T>,
    alone: bool,
) -> impl Strategy<Value = WithOutput<T>> {
    let room = select(&[1, 2, 3, 100, -1, -2, -3, NO_ROOM][..]);
    let room = prop_oneof![3 => Just(0), 2 => room];
    (of, room, [standing(alone), standing(alone)]).prop_map(|(of, room, standing)| WithOutput {
        of,
        room,
        standing,
    })
}

/// Of entries, of which about as many are damaged as are not. The damages are made smaller first,
/// which come down to those that hang on no place.
pub fn log_to_read(alone: bool) -> impl Strategy<Value = WithOutput<Log>> {
    let of_numbers = prop_oneof![3 => Just(Vec::new()), 2 => list(number_damage(), 2)];
    let of_bytes = prop_oneof![4 => Just(Vec::new()), 1 => list(byte_damage(), 2)];
    let log = (of_bytes, of_numbers, entries())
        .prop_map(|(of_bytes, of_numbers, entries)| Log::Entries(entries, of_numbers, of_bytes));
    lent(log, alone)
}

/// Few that tell something, or any.
pub fn bytes_to_read(alone: bool) -> impl Strategy<Value = WithOutput<Log>> {
    let few = vec(select(&TELLING[..]), 0..12).prop_map(Bytes::Of);
    let bytes = prop_oneof![3 => few, 1 => content(0..5_000usize)];
    lent(bytes.prop_map(Log::Bytes), alone)
}

/// Mostly in threes.
pub fn entries_to_write(alone: bool) -> impl Strategy<Value = WithOutput<Entries>> {
    let more = prop_oneof![7 => Just(0), 1 => select(&[1, 2, -1, -2][..])];
    let entries = (entries(), more).prop_map(|(entries, more)| Entries { more, ..entries });
    lent(entries, alone)
}

#[cfg(test)]
mod tests {
    use std::slice::from_ref;

    use super::*;

    fn made(numbers: &[NumberDamage], bytes: &[ByteDamage]) -> Vec<u8> {
        let entries = Entries { front: vec![[300, 0, 1]], ..Entries::default() };
        Log::Entries(entries, numbers.to_vec(), bytes.to_vec()).made()
    }

    #[test]
    fn a_log_is_made_as_it_is_described() {
        assert_eq!(made(&[], &[]), [1, 0xAC, 2, 0, 1]);
        let longer = |at, zeros| made(&[NumberDamage::Longer(At::Front(at), zeros)], &[]);
        assert_eq!(longer(0, 1), [0x81, 0, 0xAC, 2, 0, 1]);
        assert_eq!(longer(1, 2), [1, 0xAC, 0x82, 0x80, 0, 0, 1]);
        let large = NumberDamage::Becomes(At::Back(0), 1 << 32);
        assert_eq!(made(&[large], &[]), [1, 0xAC, 2, 0, 0x80, 0x80, 0x80, 0x80, 0x10]);
        let less = NumberDamage::More(At::Front(0), -2);
        assert_eq!(made(&[less], &[]), [0, 0xAC, 2, 0, 1]);
    }

    #[test]
    fn bytes_are_damaged_as_is_said() {
        let (first, last) = (At::Front(0), At::Back(0));
        let damages = [
            (ByteDamage::Flip(first, 7), &[0x81, 0xAC, 2, 0, 1][..]),
            (ByteDamage::Becomes(last, 9), &[1, 0xAC, 2, 0, 9]),
            (ByteDamage::In(last, 9), &[1, 0xAC, 2, 0, 9, 1]),
            (ByteDamage::Out(first), &[0xAC, 2, 0, 1]),
            (ByteDamage::Cut(4), &[1]),
            (ByteDamage::Cut(9), &[]),
            (ByteDamage::Behind(Bytes::Fill(2, 7)), &[1, 0xAC, 2, 0, 1, 7, 7]),
        ];
        for (damage, bytes) in damages {
            assert_eq!(made(&[], from_ref(&damage)), bytes, "{damage:?}");
        }
        assert_eq!(made(&[], &[ByteDamage::Cut(9), ByteDamage::Out(last)]), []);
    }
}
