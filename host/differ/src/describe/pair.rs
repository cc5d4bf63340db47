//! Pairs of banks: the second is the first with changes, or one of its own.

use ::image::{BANK, RECORD};
use proptest::option;
use proptest::prelude::*;
use proptest::sample::select;

use super::bank::{slot, Slot};
use super::bytes::lend;
use super::change::{counting, ignored, Change};
use super::damage::{damages, Damage};
use super::list::list;
use super::run::standing;
use super::style::Style;
use crate::partition::model;
use crate::store::book::{self, Bank};
use crate::store::lent::Standing;

#[derive(Clone, Debug, PartialEq)]
pub struct Pair {
    pub one: Slot,
    pub other: Other,
    /// The second is lent first.
    pub turned: bool,
    /// So many bytes more or less than a bank's are lent of each.
    pub more: [isize; 2],
    pub standing: [Standing; 2],
}

#[derive(Clone, Debug, PartialEq)]
pub enum Other {
    /// The first, changed where it is Valid, and then damaged.
    Changed(Vec<Change>, Vec<Damage>),
    Own(Slot),
}

impl Pair {
    pub fn made(&self) -> [Vec<u8>; 2] {
        let one = self.one.made();
        let other = match &self.other {
            Other::Changed(changes, damages) => changed(&one, changes, damages),
            Other::Own(slot) => slot.made(),
        };
        let mut both = if self.turned { [other, one] } else { [one, other] };
        both.iter_mut().zip(self.more).for_each(|(bytes, more)| lend(bytes, more));
        both
    }
}

/// Without a change, the bytes are equal.
fn changed(one: &[u8], changes: &[Change], damages: &[Damage]) -> Vec<u8> {
    let (mut out, mut starts) = (one.to_vec(), Vec::new());
    if let book::Slot::Valid(mut bank) = model::read(one).slot.owned() {
        let mut behind = one[bank.total()..].to_vec();
        take_ignored(&mut bank, one);
        changes.iter().for_each(|change| change.apply(&mut bank, &mut behind));
        (out, starts) = (bank.bytes(), bank.starts());
        out.extend(behind);
        out.resize(BANK, 0xFF);
    }
    damages.iter().for_each(|damage| damage.apply(&mut out, &starts));
    out
}

/// The reserved and closing bytes, which reading takes for 0.
fn take_ignored(bank: &mut Bank, bytes: &[u8]) {
    let starts = bank.starts();
    bank.header.reserved = bytes[15];
    for (record, at) in bank.records.iter_mut().zip(starts) {
        record.reserved = bytes[at + 3];
        record.closing = bytes[at + RECORD + record.key.len()];
    }
}

/// Mostly of Valid banks, of which about as many are the same as are not.
pub fn pair(alone: bool) -> impl Strategy<Value = Pair> {
    let style = Style::pair();
    let damages = prop_oneof![6 => Just(Vec::new()), 1 => damages(2)];
    let changed = (option::weighted(0.4, counting()), list(ignored(), 3), damages);
    let changed = changed.prop_map(|(counting, mut changes, damages)| {
        changes.extend(counting);
        Other::Changed(changes, damages)
    });
    let other = prop_oneof![12 => changed, 1 => slot(&style).prop_map(Other::Own)];
    let length = || select(&[1, -1, 36, BANK as isize, -(BANK as isize)][..]);
    let more = prop_oneof![
        30 => Just([0, 0]),
        1 => length().prop_map(|more| [more, 0]),
        1 => length().prop_map(|more| [0, more]),
        1 => [length(), length()],
    ];
    let standing = [standing(alone), standing(alone)];
    (slot(&style), other, any::<bool>(), more, standing).prop_map(
        |(one, other, turned, more, standing)| Pair { one, other, turned, more, standing },
    )
}
