//! The smallest pairs of each kind, with what is to be answered.

use image::{Header, Record, BANK};

use super::kinds::Kind;
use crate::describe::{
    Behind, Bytes, Change, Damage, Other, Pair, Place, RecordField, Slot, HEADER_FIELDS,
    RECORD_FIELDS,
};
use crate::partition::settings::Answer;
use crate::store::lent::Standing;

type Row = (Kind, Answer, Pair);

const WHOLE: u32 = BANK as u32;
/// The reading stops behind the header; the second record passes this size.
const NO_RECORD: u32 = 60;
const PASSED: u32 = 103;

pub fn pairs() -> Vec<Row> {
    [the_same(), by_fields(), by_records(), not_valid(), refused()].concat()
}

fn record(key: &[u8], value: &[u8]) -> Record<Bytes> {
    Record { key: Bytes::of(key), value: Bytes::of(value), ..Record::default() }
}

fn bank(size: u32, records: &[Record<Bytes>]) -> Slot {
    Slot::bank(Header::new(size, 1), records.to_vec(), Bytes::default())
}

/// Two records of 42 bytes.
fn two(size: u32) -> Slot {
    bank(size, &[record(b"", b"12345"), record(b"", b"54321")])
}

fn pair(one: Slot, other: Other) -> Pair {
    Pair { one, other, turned: false, more: [0, 0], standing: [Standing::Guarded(0); 2] }
}

fn changed(one: Slot, change: Change) -> Pair {
    pair(one, Other::Changed(vec![change], Vec::new()))
}

fn twice(one: Slot) -> Pair {
    pair(one, Other::Changed(Vec::new(), Vec::new()))
}

fn the_same() -> Vec<Row> {
    let behind = |place, bytes| Change::Behind(place, 0, bytes);
    let (zero, any) = (Bytes::Fill(1, 0), Bytes::of(b"no start number"));
    let changes = [
        (Kind::Reserved, WHOLE, Change::HeaderReserved(255)),
        (Kind::Reserved, WHOLE, Change::Reserved(0, 255)),
        (Kind::Reserved, WHOLE, Change::Reserved(1, 255)),
        (Kind::Closing, WHOLE, Change::Closing(0, 255)),
        (Kind::Closing, WHOLE, Change::Closing(1, 255)),
        (Kind::Free, WHOLE, behind(Behind::Records, zero.clone())),
        (Kind::Free, NO_RECORD, behind(Behind::Records, any.clone())),
        (Kind::Usable, WHOLE, behind(Behind::Records, any)),
        (Kind::Usable, WHOLE, behind(Behind::Blank, zero.clone())),
        (Kind::Later, 200, behind(Behind::Size, zero)),
        (Kind::Over, PASSED, Change::Closing(1, 255)),
    ];
    let rows = changes.map(|(kind, size, change)| (kind, Ok(true), changed(two(size), change)));
    let same = (Kind::Same, Ok(true), twice(two(WHOLE)));
    rows.into_iter().chain([same]).collect()
}

fn by_fields() -> Vec<Row> {
    let row = |kind, size, change| (kind, Ok(false), changed(two(size), change));
    let of_header = |field| row(Kind::Header, WHOLE, Change::Header(field, 0));
    let kinds = [Kind::State, Kind::Attributes, Kind::Guid, Kind::Key, Kind::Value, Kind::Value];
    let of_record = |(kind, field)| [0, 1].map(|i| row(kind, WHOLE, Change::Record(i, field, 0)));
    let mut rows: Vec<Row> = HEADER_FIELDS.map(of_header).to_vec();
    rows.extend(kinds.into_iter().zip(RECORD_FIELDS).flat_map(of_record));
    // The last byte, which is behind the size.
    rows.push(row(Kind::Over, PASSED, Change::Record(1, RecordField::Value, 4 * 8)));
    rows
}

fn by_records() -> Vec<Row> {
    let changes = [
        (Kind::Order, Change::Swap(0)),
        (Kind::Dead, Change::Dead(0)),
        (Kind::Dead, Change::Dead(1)),
        (Kind::Live, Change::Less(1)),
    ];
    let own = |one: &[_], other: &[_]| pair(bank(WHOLE, one), Other::Own(bank(WHOLE, other)));
    let (first, dead) = (record(b"", b"12345"), Record { state: 0x7C, ..record(b"", b"") });
    let more = [first.clone(), dead];
    // The same bytes, of which another part is the key.
    let (key, value) = ([record(b"\0a", b"")], [record(b"", b"a\0")]);
    let others = [
        (Kind::Dead, own(&more[..1], &more)),
        (Kind::Dead, own(&more, &more[..1])),
        (Kind::Live, own(&[], &[first])),
        (Kind::Several, own(&key, &value)),
    ];
    let changed = changes.map(|(kind, change)| (kind, changed(two(WHOLE), change)));
    changed.into_iter().chain(others).map(|(kind, pair)| (kind, Ok(false), pair)).collect()
}

fn empty() -> Slot {
    Slot::bytes(Bytes::Fill(BANK, 0xFF))
}

fn zeros() -> Slot {
    Slot::bytes(Bytes::Fill(BANK, 0))
}

/// A bit of the signature, of the version, of a value and of a name length.
fn not_valid() -> Vec<Row> {
    let at = |record, offset| Damage::Flip(Place { record, offset }, 0);
    let mut rows = vec![
        (Kind::BothEmpty, twice(empty())),
        (Kind::SameInvalid, twice(zeros())),
        (Kind::NoneValid, pair(empty(), Other::Own(zeros()))),
        (Kind::OneValid, pair(empty(), Other::Own(two(WHOLE)))),
    ];
    for damage in [at(0, 0), at(0, 14), at(1, 37), at(2, 8)] {
        let invalid = Slot { damages: vec![damage.clone()], ..two(WHOLE) };
        rows.push((Kind::SameInvalid, twice(invalid)));
        let one_valid = Other::Changed(Vec::new(), vec![damage]);
        rows.push((Kind::OneValid, pair(two(WHOLE), one_valid)));
    }
    rows.into_iter().map(|(kind, pair)| (kind, Ok(false), pair)).collect()
}

fn refused() -> Vec<Row> {
    let bank = BANK as isize;
    let lengths = [[-1, 0], [0, -1], [1, 0], [0, 1], [1, -1], [-bank, -bank], [bank, bank]];
    let slots = [two(WHOLE), empty(), zeros()].into_iter();
    let pairs = slots.flat_map(|one| lengths.map(|more| Pair { more, ..twice(one.clone()) }));
    pairs.map(|pair| (Kind::Refused, Err(14), pair)).collect()
}
