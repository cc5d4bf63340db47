//! Slots: a bank as a header, records and what is behind them, or bytes that never were one; and
//! what damaged it.

use ::image::{Header, Record, BANK, COMMON_GUID, RECORD, SYSTEM_GUID};
use proptest::collection::vec;
use proptest::prelude::*;
use proptest::sample::select;

use super::bytes::{content, Bytes};
use super::damage::{damages, Damage};
use super::style::Style;

/// Neither of the two GUIDs, though close to one.
const THIRD_GUID: [u8; 16] = [
    0x40, 0xA0, 0xDD, 0xD2, 0x77, 0xF8, 0x43, 0x92, 0xB4, 0xA3, 0x1E, 0x73, 0x04, 0x20, 0x65, 0x17,
];
const GENERATIONS: [u32; 5] = [1, 0, 2, 5, 1 << 31];
const LAST: [u32; 3] = [u32::MAX, u32::MAX - 1, u32::MAX - 2];

#[derive(Clone, Debug, PartialEq)]
pub struct Slot {
    pub holds: Holds,
    pub damages: Vec<Damage>,
}

#[derive(Clone, Debug, PartialEq)]
pub enum Holds {
    Bank(Bank),
    /// These, and 0xFF behind them.
    Bytes(Bytes),
}

#[derive(Clone, Debug, PartialEq)]
pub struct Bank {
    pub header: Header,
    pub records: Vec<Record<Bytes>>,
    /// The records one after the other, so many times.
    pub times: usize,
    /// Records that would pass the size are left out.
    pub within: bool,
    pub behind: Bytes,
}

impl Slot {
    pub fn bytes(bytes: Bytes) -> Self {
        Slot { holds: Holds::Bytes(bytes), damages: Vec::new() }
    }

    pub fn bank(header: Header, records: Vec<Record<Bytes>>, behind: Bytes) -> Self {
        let bank = Bank { header, records, times: 1, within: false, behind };
        Slot { holds: Holds::Bank(bank), damages: Vec::new() }
    }

    pub fn described(&self) -> Option<&Bank> {
        match &self.holds {
            Holds::Bank(bank) => Some(bank),
            Holds::Bytes(_) => None,
        }
    }

    /// The bytes of one bank.
    pub fn made(&self) -> Vec<u8> {
        let (mut out, mut starts) = match &self.holds {
            Holds::Bytes(bytes) => (bytes.made(), Vec::new()),
            Holds::Bank(bank) => bank.made(),
        };
        out.resize(BANK, 0xFF);
        starts.retain(|&at| at + RECORD <= BANK);
        for damage in &self.damages {
            damage.apply(&mut out, &starts);
        }
        out
    }
}

impl Bank {
    /// Its bytes, and where its records start.
    fn made(&self) -> (Vec<u8>, Vec<usize>) {
        let (mut out, mut starts) = (self.header.bytes(), Vec::new());
        let size = self.header.size as usize;
        let records: Vec<Vec<u8>> =
            self.records.iter().map(|r| r.map(Bytes::made).bytes()).collect();
        for record in (0..self.times).flat_map(|_| &records) {
            let over = self.within && out.len() + record.len() > size;
            if over || out.len() >= BANK {
                break;
            }
            starts.push(out.len());
            out.extend(record);
        }
        out.extend(self.behind.made());
        (out, starts)
    }
}

/// Drops the records that are not needed, counted over all slots.
pub fn keep(slots: &mut [Slot], needed: &[bool]) {
    let mut needed = needed.iter();
    for slot in slots {
        if let Holds::Bank(bank) = &mut slot.holds {
            bank.records.retain(|_| *needed.next().unwrap_or(&true));
        }
    }
}

/// Mostly a bank.
pub fn slot(style: &Style) -> impl Strategy<Value = Slot> {
    let junk = prop_oneof![
        3 => select(&[0xFF, 0xFF, 0][..]).prop_map(|byte| Bytes::Fill(BANK, byte)),
        1 => content(Just(BANK)),
    ];
    let holds = prop_oneof![
        style.bank_of - 1 => bank(style).prop_map(Holds::Bank),
        1 => junk.prop_map(Holds::Bytes),
    ];
    let none = Just(Vec::new());
    let damages = match style.damaged_of {
        Some(count) => prop_oneof![count - 1 => none, 1 => damages(3)].boxed(),
        None => none.boxed(),
    };
    (holds, damages).prop_map(|(holds, damages)| Slot { holds, damages })
}

/// What is named first is made smaller first: a smaller bank is filled by fewer records.
fn bank(style: &Style) -> impl Strategy<Value = Bank> {
    let generation = prop_oneof![
        16 => select(&GENERATIONS[..]),
        8 => any::<u32>(),
        1 => select(&LAST[..]),
    ];
    let bytes = (any::<u8>(), any::<u8>(), select(&[0, 255, 7][..]));
    let header = (generation, style.limit.clone(), style.limit.clone(), bytes);
    (
        style.times.clone(),
        style.size.clone(),
        vec(record(style), 0..=style.most),
        header.prop_map(|(generation, system_limit, common_limit, bytes)| Header {
            system_limit,
            common_limit,
            state: bytes.0,
            flags: bytes.1,
            reserved: bytes.2,
            ..Header::new(0, generation)
        }),
        style.within.clone(),
        style.behind.clone(),
    )
        .prop_map(|(times, size, records, header, within, behind)| Bank {
            header: Header { size, ..header },
            records,
            times,
            within,
            behind,
        })
}

/// Reserved and closing bytes are anything, and 255 often.
fn record(style: &Style) -> impl Strategy<Value = Record<Bytes>> {
    let (key, value) = (style.key.clone(), style.value.clone());
    let state = select(&[0x7F, 0x7F, 0x7F, 0x7C, 0x7E, 0xFF][..]);
    let guid = select(&[SYSTEM_GUID, COMMON_GUID, THIRD_GUID, [9; 16]][..]);
    let (reserved, closing) = (select(&[0, 255, 7][..]), select(&[0, 255, 7][..]));
    let attributes = select(&[0, 0, 1, u32::MAX, 0x0102_0304][..]);
    (key, value, state, guid, reserved, closing, attributes).prop_map(
        |(key, value, state, guid, reserved, closing, attributes)| Record {
            state,
            reserved,
            attributes,
            guid,
            key,
            closing,
            value,
        },
    )
}

#[cfg(test)]
mod tests {
    use super::super::damage::Place;
    use super::*;

    fn rate() -> Record<Bytes> {
        Record::live(b"rate", b"123456789").map(|bytes| Bytes::of(bytes))
    }

    #[test]
    fn a_slot_is_made_as_it_is_described() {
        let header = Header::new(120, 5);
        let mut slot = Slot::bank(header.clone(), vec![rate()], Bytes::Fill(3, 7));
        let mut bank = ::image::bank(&header, &[Record::live(b"rate", b"123456789")]);
        bank[74..77].fill(7);
        assert_eq!(slot.made(), bank);
        let at = |record, offset| Place { record, offset };
        slot.damages = vec![
            Damage::Flip(at(0, 14), 1),
            Damage::More(at(1, 8), u32::MAX),
            Damage::Out(at(1, 50), 2),
            Damage::Over(at(7, 51), Bytes::of(b"xy")),
        ];
        (bank[14], bank[24 + 8]) = (3, 4);
        bank.copy_within(76.., 74);
        bank[BANK - 2..].fill(0xFF);
        bank[75..77].copy_from_slice(b"xy");
        assert_eq!(slot.made(), bank);
    }

    #[test]
    fn records_are_repeated_within_the_size() {
        let bank = |times, within| Bank {
            header: Header::new(120, 5),
            records: vec![rate()],
            times,
            within,
            behind: Bytes::default(),
        };
        assert_eq!(bank(3, false).made().1, [24, 74, 124]);
        assert_eq!(bank(3, true).made().1, [24]);
        assert_eq!(bank(BANK, false).made().1.len(), (BANK - 24 + 49) / 50);
    }
}
