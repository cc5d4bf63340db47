//! The smallest banks of each cause, at the first record and at later ones, and those in which one
//! cause is met before another.

use feqyondil::{Cause, Spot};
use image::{Header, Record, BANK, HEADER, RECORD};

use crate::describe::{Bytes, Damage, Place, Slot};

type Row = (Cause, Slot);

const WHOLE: u32 = BANK as u32;
/// Of each record of `three`.
const LEN: usize = 42;

pub fn all() -> Vec<Row> {
    let at_records = (0..3).flat_map(at_record);
    at_header().into_iter().chain(at_records).chain(in_order()).chain(at_the_end()).collect()
}

/// Three records, of which the first is dead; what reading ignores is 255.
fn three(size: u32, damages: &[Damage]) -> Slot {
    let record = |state| Record {
        state,
        reserved: 255,
        closing: 255,
        value: Bytes::of(b"12345"),
        ..Record::default()
    };
    let records = [0x7C, 0x7F, 0x7F].map(record).to_vec();
    let header = Header { reserved: 255, ..Header::new(size, 1) };
    Slot { damages: damages.to_vec(), ..Slot::bank(header, records, Bytes::default()) }
}

fn flip(record: usize, offset: usize) -> Damage {
    Damage::Flip(Place { record, offset }, 0)
}

fn number(record: usize, offset: usize, number: u32) -> Damage {
    Damage::Number(Place { record, offset }, number)
}

/// Bytes over the start of a record.
fn over(record: usize, bytes: Bytes) -> Damage {
    Damage::Over(Place { record, offset: 0 }, bytes)
}

/// So many of one byte, and then of another.
fn two_fills(first: (usize, u8), then: (usize, u8)) -> Bytes {
    Bytes::Joined([first, then].map(|(len, byte)| Bytes::Fill(len, byte)).to_vec())
}

fn at_header() -> Vec<Row> {
    let erased_but_one = two_fills((BANK - 1, 0xFF), (1, 0));
    let mut rows = vec![
        (Cause::Empty, Slot::bytes(Bytes::Fill(BANK, 0xFF))),
        (Cause::Signature, Slot::bytes(erased_but_one)),
        (Cause::Signature, Slot::bytes(Bytes::Fill(BANK, 0))),
        (Cause::Version, Slot::bytes(Bytes::of(b"3VVN"))),
    ];
    // Each with those behind it, and with a wrong CRC.
    let faults = [flip(0, 3), flip(0, 14), number(0, 4, 23), flip(1, 32)];
    let causes = [Cause::Signature, Cause::Version, Cause::Size];
    for (i, cause) in causes.into_iter().enumerate() {
        rows.push((cause, three(WHOLE, &faults[i..])));
    }
    rows.extend([0, WHOLE + 1, u32::MAX].map(|size| (Cause::Size, three(size, &[]))));
    rows
}

/// Each cause that can be met there.
fn at_record(index: usize) -> Vec<Row> {
    let (record, start) = (index + 1, HEADER + LEN * index);
    let spot = |field| Spot { place: start + field, index };
    let (name, crc) = (Cause::Name(spot(8)), Cause::Crc(spot(32)));
    let size = (start + RECORD) as u32;
    let damages = [
        (Cause::Blank, over(record, Bytes::Fill(RECORD, 0))),
        (Cause::Blank, over(record, two_fills((RECORD - 1, 0xFF), (1, 0)))),
        (Cause::Start, over(record, two_fills((RECORD - 1, 0xFF), (1, 1)))),
        (Cause::Start, flip(record, 0)),
        (Cause::Start, flip(record, 1)),
        // One byte over what remains, and over all numbers.
        (Cause::Length, number(record, 12, WHOLE - size)),
        (Cause::Length, number(record, 8, u32::MAX)),
        (name, number(record, 8, 0)),
        (crc, flip(record, 32)),
        (crc, flip(record, LEN - 1)),
    ];
    let rows = damages.map(|(cause, damage)| (cause, three(WHOLE, &[damage])));
    // Not reached, and the first byte reached.
    let ends = [
        (Cause::End, three(size, &[flip(record, 32)])),
        (Cause::End, three(size + 1, &[])),
        (crc, three(size + 1, &[flip(record, 32)])),
    ];
    rows.into_iter().chain(ends).collect()
}

/// Several at one record, and faults behind a stop.
fn in_order() -> Vec<Row> {
    let spot = |field| Spot { place: HEADER + LEN + field, index: 1 };
    let causes =
        [Cause::Crc(spot(32)), Cause::Name(spot(8)), Cause::Length, Cause::Start, Cause::Blank];
    let most = |record| number(record, 12, u32::MAX);
    let zeros = |record| over(record, Bytes::Fill(RECORD, 0));
    let faults = [flip(2, 32), number(2, 8, 0), most(2), flip(2, 0), zeros(2)];
    let several = causes.into_iter().enumerate();
    let mut rows: Vec<Row> =
        several.map(|(i, cause)| (cause, three(WHOLE, &faults[..=i]))).collect();
    let stops = [(Cause::Blank, zeros(1)), (Cause::Start, flip(1, 0)), (Cause::Length, most(1))];
    for (cause, stop) in stops {
        rows.push((cause, three(WHOLE, &[stop.clone(), flip(2, 32)])));
        rows.push((cause, three(WHOLE, &[stop, number(2, 8, 0)])));
    }
    // A blank put before a record.
    for byte in [0, 0xFF] {
        let blank = Damage::In(Place { record: 2, offset: 0 }, Bytes::Fill(RECORD, byte));
        rows.push((Cause::Blank, three(WHOLE, &[flip(2, 32), blank])));
    }
    rows
}

/// Behind the last record; and one that ends with the bank, or would end a byte behind it.
fn at_the_end() -> Vec<Row> {
    let value = Bytes::Fill(BANK - HEADER - RECORD - 1, 7);
    let record = Record { value, ..Record::default() };
    let last = Slot::bank(Header::default(), vec![record], Bytes::default());
    let with = |damage| Slot { damages: vec![damage], ..last.clone() };
    let more = Damage::More(Place { record: 1, offset: 12 }, 1);
    let crc = Cause::Crc(Spot { place: HEADER + 32, index: 0 });
    vec![
        (Cause::Blank, three(WHOLE, &[])),
        (Cause::End, three(HEADER as u32, &[])),
        (crc, with(flip(1, BANK - HEADER - 1))),
        (Cause::Length, with(more)),
        (Cause::End, last),
    ]
}

#[cfg(test)]
mod tests {
    use super::*;
    use crate::partition::cause::Causes;
    use crate::partition::model;

    #[test]
    fn each_bank_has_its_cause() {
        let mut causes = Causes::of(None);
        for (cause, slot) in all() {
            let bank = slot.made();
            let read = model::read(&bank);
            assert_eq!(read.cause, cause, "{slot:?}");
            causes += Causes::of(Some(&read));
        }
        let lacks = causes.numbers().into_iter().find(|(_, count)| *count == 0);
        assert_eq!(lacks, None);
    }
}
