//! What damages bytes that hold records.

use ::image::{number, put_number, BANK, RECORD};
use proptest::prelude::*;
use proptest::sample::select;

use super::bytes::{content, Bytes};
use super::list::list;

/// Numbers at which a check changes its mind.
#[rustfmt::skip]
pub const NUMBERS: [u32; 21] = [
    0, 1, 2, 3, 5, 15, 16, 17, 23, 24, 25, 65_475, 65_476, 65_535, 65_536, 65_537, 131_072,
    131_073, 1 << 31, u32::MAX - 35, u32::MAX,
];

/// So many bytes behind the start of a record, counted from 1; record 0 is the header.
#[derive(Clone, Copy, Debug, PartialEq)]
pub struct Place {
    pub record: usize,
    pub offset: usize,
}

#[derive(Clone, Debug, PartialEq)]
pub enum Damage {
    Flip(Place, u8),
    /// A number becomes another, or so much more.
    Number(Place, u32),
    More(Place, u32),
    /// Bytes over those that are there.
    Over(Place, Bytes),
    /// So many taken out, so that what follows moves up.
    Out(Place, usize),
    /// Some put in.
    In(Place, Bytes),
}

impl Place {
    /// Within `len` bytes, whose records start at these places.
    pub fn at(&self, starts: &[usize], len: usize) -> usize {
        let start = match (self.record, starts.len()) {
            (0, _) | (_, 0) => 0,
            (record, count) => starts[(record - 1) % count],
        };
        (start + self.offset).min(len.saturating_sub(1))
    }
}

impl Damage {
    /// The length stays; 0xFF comes in at the end.
    pub fn apply(&self, bytes: &mut Vec<u8>, starts: &[usize]) {
        let len = bytes.len();
        if len == 0 {
            return;
        }
        let at = |place: &Place| place.at(starts, len);
        match self {
            Damage::Flip(place, bit) => bytes[at(place)] ^= 1 << (bit % 8),
            Damage::Number(place, number) => over(bytes, at(place), &number.to_le_bytes()),
            Damage::More(place, more) if len >= 4 => {
                let at = at(place).min(len - 4);
                let sum = number(bytes, at).wrapping_add(*more);
                put_number(bytes, at, sum);
            }
            Damage::More(..) => {}
            Damage::Over(place, new) => over(bytes, at(place), &new.made()),
            Damage::Out(place, count) => {
                let at = at(place);
                bytes.drain(at..len.min(at + count));
            }
            Damage::In(place, new) => {
                let at = at(place);
                bytes.splice(at..at, new.made());
            }
        }
        bytes.resize(len, 0xFF);
    }
}

/// As far as there is room.
fn over(bytes: &mut [u8], at: usize, new: &[u8]) {
    let room = &mut bytes[at..];
    let reach = room.len().min(new.len());
    room[..reach].copy_from_slice(&new[..reach]);
}

/// A byte of a header, of a record or about its end, seldom any.
fn place() -> impl Strategy<Value = Place> {
    let near = (0..40usize, 0..2 * RECORD);
    prop_oneof![
        6 => near.prop_map(|(record, offset)| Place { record, offset }),
        1 => (0..BANK).prop_map(|offset| Place { record: 0, offset }),
    ]
}

/// The place of a number in a header or in a record.
pub fn field(fields: &'static [usize]) -> impl Strategy<Value = Place> {
    let record = prop_oneof![0..3usize, 0..40usize];
    (record, select(fields)).prop_map(|(record, offset)| Place { record, offset })
}

/// A number of these becomes another.
pub fn numbers(fields: &'static [usize]) -> impl Strategy<Value = Damage> {
    let number = prop_oneof![3 => select(&NUMBERS[..]), 1 => any::<u32>()];
    let more = select(&[1, u32::MAX, 1 << 16, 0xFFFF_0000][..]);
    prop_oneof![
        (field(fields), number).prop_map(|(at, number)| Damage::Number(at, number)),
        (field(fields), more).prop_map(|(at, more)| Damage::More(at, more)),
    ]
}

pub fn damage() -> impl Strategy<Value = Damage> {
    let few = select(&[1, 2, 36, 1000][..]);
    prop_oneof![
        5 => (place(), 0..8u8).prop_map(|(at, bit)| Damage::Flip(at, bit)),
        4 => numbers(&[4, 8, 12, 16, 20, 32]),
        1 => (place(), content(1..RECORD)).prop_map(|(at, new)| Damage::Over(at, new)),
        1 => place().prop_map(|at| Damage::Over(at, Bytes::Fill(BANK, 0xFF))),
        1 => (place(), few.clone()).prop_map(|(at, count)| Damage::Out(at, count)),
        1 => (place(), content(few)).prop_map(|(at, new)| Damage::In(at, new)),
    ]
}

/// Up to so many of them.
pub fn damages(most: usize) -> impl Strategy<Value = Vec<Damage>> {
    list(damage(), most)
}
