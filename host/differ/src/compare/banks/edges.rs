//! Banks at the boundaries: where the last record ends, and what lies behind it.

use std::ops::Range;

use image::{Header, Record, BANK, HEADER, RECORD};

use crate::describe::{Bytes, Damage, Place, Slot};

const SIZES: [usize; 13] = [24, 25, 60, 61, 62, 96, 97, 98, 134, 1000, 65_500, 65_535, 65_536];
/// Shortest record: an empty key and no value.
const SHORTEST: usize = RECORD + 1;
/// Kinds of bytes behind the last record.
const BEHIND: usize = 9;

/// Ends about the size, which leaves 36 and 37 bytes free too, and about 65,536, each with every
/// kind of bytes behind.
pub fn all() -> impl Iterator<Item = Slot> {
    let ends = SIZES.iter().flat_map(|&size| {
        let ends = about(size, 80).chain(about(BANK, 3));
        let ends = ends.filter(|&end| end == HEADER || end >= HEADER + SHORTEST);
        ends.map(move |end| (size, end))
    });
    let edges = ends.flat_map(|edge| (0..BEHIND).map(move |kind| (edge, kind)));
    edges.enumerate().map(|(i, ((size, end), kind))| edge(size, end, kind, i))
}

fn about(place: usize, reach: usize) -> Range<usize> {
    place.saturating_sub(reach)..place + reach + 1
}

/// Of one record or of two, and now and then one byte about the size is not what it was.
fn edge(size: usize, end: usize, kind: usize, i: usize) -> Slot {
    let header = Header { size: size as u32, ..Header::default() };
    let (room, mut records) = (end - HEADER, Vec::new());
    let first = match room >= 2 * SHORTEST && i % 2 == 0 {
        true => room / 2,
        false => 0,
    };
    for len in [first, room - first] {
        records.extend((len > 0).then(|| record(len, i)));
    }
    let mut slot = Slot::bank(header, records, behind(kind, i as u64));
    if i % 4 == 1 {
        let offset = size - 1 + i / 4 % 3;
        let byte = [0, 1, 0xFE][i / 12 % 3];
        let place = Place { record: 0, offset };
        slot.damages.push(Damage::Over(place, Bytes::Fill(1, byte)));
    }
    slot
}

/// A record of exactly `len` bytes.
fn record(len: usize, i: usize) -> Record<Bytes> {
    let room = len - SHORTEST;
    let (key, seed) = (i % (room.min(40) + 1), i as u64);
    Record {
        key: Bytes::Random(key, seed),
        value: Bytes::Random(room - key, seed + 1),
        ..Record::default()
    }
}

/// Bytes of one of the kinds.
fn behind(kind: usize, seed: u64) -> Bytes {
    let fill = Bytes::Fill;
    // A start number of a record whose lengths are 0 or 2^32 - 1.
    let start = Bytes::of(&[0xAA, 0x55]);
    let then = |first, last| Bytes::Joined(vec![first, last]);
    match kind {
        0 => Bytes::default(), // 0xFF to the end
        1 => fill(BANK, 0),
        2 => fill(RECORD, 0),
        3 => then(fill(RECORD, 0xFF), fill(1, 0)),
        4 => then(fill(RECORD - 1, 0xFF), fill(1, 1)),
        5 => then(fill(RECORD, 0), fill(1, 0xFE)),
        6 => then(fill(RECORD, 0xFF), then(fill(seed as usize % 40, 0xFF), fill(1, seed as u8))),
        7 => then(start, fill(RECORD, [0, 0xFF][seed as usize % 2])),
        _ => Bytes::Random(100, seed),
    }
}
