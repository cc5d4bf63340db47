//! Images: slots, and bytes behind the last.

use std::fmt::{self, Display, Formatter};

use ::image::BANK;
use proptest::collection::vec;
use proptest::prelude::*;
use proptest::sample::select;

use super::bank::{slot, Slot};
use super::bytes::{content, Bytes};
use super::style::Style;

#[derive(Clone, Debug, PartialEq)]
pub struct Image {
    pub slots: Vec<Slot>,
    pub tail: Bytes,
}

impl Image {
    /// Of these bytes.
    pub fn of(bytes: &[u8]) -> Self {
        let banks = bytes.chunks_exact(BANK);
        let tail = short(banks.remainder());
        let slots = banks.map(|bank| Slot::bytes(short(bank)));
        Image { slots: slots.collect(), tail }
    }

    pub fn made(&self) -> Vec<u8> {
        let slots = self.slots.iter().map(Slot::made);
        let parts: Vec<_> = slots.chain([self.tail.made()]).collect();
        parts.concat()
    }
}

#[cfg(test)]
impl Image {
    /// How many records are described.
    pub fn records(&self) -> usize {
        let banks = self.slots.iter().filter_map(Slot::described);
        banks.map(|bank| bank.records.len() * bank.times).sum()
    }
}

/// The byte at the end is said once.
fn short(bytes: &[u8]) -> Bytes {
    let Some(&fill) = bytes.last() else {
        return Bytes::default();
    };
    let front = bytes.iter().rposition(|&b| b != fill).map_or(0, |at| at + 1);
    let rest = Bytes::Fill(bytes.len() - front, fill);
    match front {
        0 => rest,
        _ => Bytes::Joined(vec![Bytes::of(&bytes[..front]), rest]),
    }
}

impl Display for Image {
    fn fmt(&self, f: &mut Formatter) -> fmt::Result {
        for (i, slot) in self.slots.iter().enumerate() {
            writeln!(f, "  bank {i}: {slot:?}")?;
        }
        write!(f, "  behind the banks: {:?}", self.tail)
    }
}

/// Up to three banks mostly, and now and then bytes behind the last.
pub fn image(style: &Style) -> impl Strategy<Value = Image> {
    let fewest = style.fewest;
    let slots = prop_oneof![
        12 => vec(slot(style), fewest..=3),
        3 => vec(slot(style), fewest..=7),
        1 => vec(slot(style), fewest..=16),
    ];
    let tail = content(select(&[1, 24, 100, BANK - 1][..]));
    let tail = prop_oneof![4 => Just(Bytes::default()), 1 => tail];
    (slots, tail).prop_map(|(slots, tail)| Image { slots, tail })
}
