//! What is changed in a Valid bank, in the terms of what was read. Records are counted from 0, and
//! from the first again behind the last.

use std::slice::from_mut;

use ::image::{Header, Record, BANK, RECORD};
use proptest::prelude::*;
use proptest::sample::select;

use super::bytes::{content, Bytes};
use super::damage::{Damage, Place};
use crate::store::book::Bank;

/// Bytes by which a value is changed so that its checksum stays: the polynomial.
const POLYNOMIAL: [u8; 5] = [0x41, 0x06, 0x71, 0xDB, 0x01];
const DEAD: u8 = 0x7C;

#[derive(Clone, Debug, PartialEq)]
pub enum Change {
    /// The header's reserved byte, a record's, and its closing byte.
    HeaderReserved(u8),
    Reserved(usize, u8),
    Closing(usize, u8),
    /// Bytes over those that are so far behind a place.
    Behind(Behind, usize, Bytes),
    /// A bit of a field; a key or a value that is empty gets a byte.
    Header(HeaderField, usize),
    Record(usize, RecordField, usize),
    /// A record and the next one change places.
    Swap(usize),
    /// A dead copy of a record goes before it.
    Dead(usize),
    /// A record goes.
    Less(usize),
}

#[derive(Clone, Copy, Debug, PartialEq)]
pub enum Behind {
    Records,
    /// The 36 bytes behind the records, which end the reading where each is 0 or 0xFF.
    Blank,
    Size,
}

#[derive(Clone, Copy, Debug, PartialEq)]
pub enum HeaderField {
    Size,
    Generation,
    State,
    Flags,
    SystemLimit,
    CommonLimit,
}

#[derive(Clone, Copy, Debug, PartialEq)]
pub enum RecordField {
    State,
    Attributes,
    Guid,
    Key,
    Value,
    /// Five bytes of the value, whose checksum stays; of the first record from there on that has
    /// so many.
    SameSum,
}

pub const HEADER_FIELDS: [HeaderField; 6] = [
    HeaderField::Size,
    HeaderField::Generation,
    HeaderField::State,
    HeaderField::Flags,
    HeaderField::SystemLimit,
    HeaderField::CommonLimit,
];

pub const RECORD_FIELDS: [RecordField; 6] = [
    RecordField::State,
    RecordField::Attributes,
    RecordField::Guid,
    RecordField::Key,
    RecordField::Value,
    RecordField::SameSum,
];

impl Change {
    /// To a bank and the bytes behind its records.
    pub fn apply(&self, bank: &mut Bank, behind: &mut Vec<u8>) {
        let free = (bank.header.size as usize).saturating_sub(bank.total());
        let (header, records) = (&mut bank.header, &mut bank.records);
        let count = records.len().max(1);
        match self {
            Change::HeaderReserved(byte) => header.reserved = *byte,
            Change::Header(field, bit) => field.flip(header, *bit),
            Change::Behind(place, more, bytes) => {
                let offset = place.offset(free) + more;
                Damage::Over(Place { record: 0, offset }, bytes.clone()).apply(behind, &[]);
            }
            Change::Reserved(i, _) | Change::Closing(i, _) | Change::Record(i, ..) => {
                let (before, from) = records.split_at_mut(i % count);
                let first = from.iter_mut().chain(before).find(|record| self.fits(record));
                if let Some(record) = first {
                    self.in_record(record);
                }
            }
            Change::Swap(i) if records.len() > 1 => records.swap(i % count, (i + 1) % count),
            Change::Dead(i) => {
                let record = records.get(i % count).cloned().unwrap_or_default();
                records.insert(i % count, Record { state: DEAD, ..record });
            }
            Change::Less(i) if !records.is_empty() => drop(records.remove(i % count)),
            Change::Swap(_) | Change::Less(_) => {}
        }
    }

    /// Whether a record has what is changed.
    fn fits(&self, record: &Record) -> bool {
        match self {
            Change::Record(_, RecordField::SameSum, _) => record.value.len() >= POLYNOMIAL.len(),
            _ => true,
        }
    }

    fn in_record(&self, record: &mut Record) {
        match self {
            Change::Reserved(_, byte) => record.reserved = *byte,
            Change::Closing(_, byte) => record.closing = *byte,
            Change::Record(_, field, bit) => field.flip(record, *bit),
            _ => {}
        }
    }
}

impl Behind {
    /// Behind the records, of which so many bytes are free.
    fn offset(self, free: usize) -> usize {
        match self {
            Behind::Records => 0,
            Behind::Blank => RECORD,
            Behind::Size => free,
        }
    }
}

impl HeaderField {
    fn flip(self, header: &mut Header, bit: usize) {
        let flipped = |number: u32| number ^ 1 << (bit % 32);
        match self {
            // Of one less, so that another size than 65,536 is below it.
            HeaderField::Size => {
                let less = header.size.wrapping_sub(1);
                header.size = (less ^ 1 << (bit % 16)).wrapping_add(1);
            }
            HeaderField::Generation => header.generation = flipped(header.generation),
            HeaderField::State => flip(from_mut(&mut header.state), bit),
            HeaderField::Flags => flip(from_mut(&mut header.flags), bit),
            HeaderField::SystemLimit => header.system_limit = flipped(header.system_limit),
            HeaderField::CommonLimit => header.common_limit = flipped(header.common_limit),
        }
    }
}

impl RecordField {
    fn flip(self, record: &mut Record, bit: usize) {
        match self {
            RecordField::State => flip(from_mut(&mut record.state), bit),
            RecordField::Attributes => record.attributes ^= 1 << (bit % 32),
            RecordField::Guid => flip(&mut record.guid, bit),
            RecordField::Key if record.key.is_empty() => record.key.push(7),
            RecordField::Key => flip(&mut record.key, bit),
            RecordField::Value if record.value.is_empty() => record.value.push(7),
            RecordField::Value => flip(&mut record.value, bit),
            RecordField::SameSum => {
                let places = record.value.len() + 1 - POLYNOMIAL.len();
                let five = record.value[bit / 8 % places..].iter_mut().zip(POLYNOMIAL);
                five.for_each(|(byte, change)| *byte ^= change);
            }
        }
    }
}

/// A bit of these bytes, from the first again behind the last.
fn flip(bytes: &mut [u8], bit: usize) {
    let at = bit / 8 % bytes.len();
    bytes[at] ^= 1 << (bit % 8);
}

/// Among the first mostly.
fn nth() -> impl Strategy<Value = usize> {
    prop_oneof![3 => 0..4usize, 1 => 0..2_000usize]
}

/// What does not count in N1.
pub fn ignored() -> impl Strategy<Value = Change> {
    let byte = || select(&[255, 0, 7][..]);
    let blank = (0..RECORD, 1..=RECORD, select(&[0, 255][..]));
    let blank = blank.prop_map(|(at, len, byte)| {
        Change::Behind(Behind::Records, at, Bytes::Fill(len.min(RECORD - at), byte))
    });
    let place = select(&[Behind::Blank, Behind::Size][..]);
    let far = prop_oneof![2 => 0..3usize, 1 => 0..2 * RECORD, 1 => 0..BANK];
    let few = content(prop_oneof![2 => Just(1), 1 => 1..40usize]);
    prop_oneof![
        1 => byte().prop_map(Change::HeaderReserved),
        1 => (nth(), byte()).prop_map(|(i, byte)| Change::Reserved(i, byte)),
        2 => (nth(), byte()).prop_map(|(i, byte)| Change::Closing(i, byte)),
        1 => blank,
        2 => (place, far, few).prop_map(|(place, more, new)| Change::Behind(place, more, new)),
    ]
}

/// What counts.
pub fn counting() -> impl Strategy<Value = Change> {
    let bit = || prop_oneof![2 => 0..8usize, 2 => 0..256usize, 1 => 0..8 * BANK];
    let header = (select(&HEADER_FIELDS[..]), bit());
    let record = (nth(), select(&RECORD_FIELDS[..]), bit());
    prop_oneof![
        3 => header.prop_map(|(field, bit)| Change::Header(field, bit)),
        8 => record.prop_map(|(i, field, bit)| Change::Record(i, field, bit)),
        2 => nth().prop_map(Change::Swap),
        2 => nth().prop_map(Change::Dead),
        1 => nth().prop_map(Change::Less),
    ]
}

#[cfg(test)]
mod tests {
    use super::*;

    #[test]
    fn another_value_has_the_same_sum() {
        for (bit, at) in [(0, 0), (8 * 4 + 3, 4), (8 * 5, 0)] {
            let mut record = Record::live(b"rate", b"123456789");
            RecordField::SameSum.flip(&mut record, bit);
            let apart = record.value.iter().zip(b"123456789").position(|(a, b)| a != b);
            assert_eq!(apart, Some(at));
            assert_eq!(crc32fast::hash(&record.value), 0xCBF4_3926);
        }
    }
}
