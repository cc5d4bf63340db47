//! The runs of the fixed list with figures: what records come to.

use image::{Header, Record, BANK, COMMON_GUID, SYSTEM_GUID};

use super::pieces::{fill_and, held, put, remove, Named};
use crate::store::book::LIVE;
use crate::store::lent::call::Call;
use crate::store::run::Run;

/// States of dead records, as which any but 0x7F counts.
const DEAD: [u8; 5] = [0x7C, 0x7E, 0x7D, 0xFF, 0];
/// GUIDs of neither type: the last bit of either off, and another.
const THIRD: [[u8; 16]; 3] = [near(SYSTEM_GUID), near(COMMON_GUID), [0; 16]];

const fn near(mut guid: [u8; 16]) -> [u8; 16] {
    guid[15] ^= 1;
    guid
}

pub fn list() -> Vec<Named> {
    let of = |records: &[Record]| Run::new(image::bank(&Header::default(), records), after(&[]));
    let dead = [SYSTEM_GUID, COMMON_GUID, THIRD[0]];
    let dead = dead.map(|guid| DEAD.map(|state| record(state, guid, 3))).concat();
    let third = THIRD.map(|guid| record(LIVE, guid, 5));
    let both = [(SYSTEM_GUID, 7), (COMMON_GUID, 11)].map(|(guid, len)| record(LIVE, guid, len));
    let all = [&dead[..], &third[..], &both[..]].concat();
    let two = [held(2), held(1)].concat();
    vec![
        ("figures-of-no-record", of(&[])),
        ("figures-of-dead-ones", of(&dead)),
        ("figures-of-third-guids", of(&third)),
        ("figures-of-both-types", of(&both)),
        ("figures-of-all", of(&all)),
        ("figures-after-edits", Run::new(held(1), after(&edits()))),
        ("figures-after-a-move", Run::new(two, after(&moved()))),
    ]
}

fn record(state: u8, guid: [u8; 16], len: usize) -> Record {
    Record { state, guid, ..Record::live(b"k", &vec![7; len]) }
}

/// The figures, and again behind each call.
fn after(calls: &[Call]) -> Vec<Call> {
    let each = calls.iter().flat_map(|call| [call.clone(), Call::figures()]);
    [Call::figures()].into_iter().chain(each).collect()
}

fn edits() -> Vec<Call> {
    vec![
        put(b"k", b"v", 0),
        put(b"k", b"value", 0),
        put(b"rate", b"1", 1),
        remove(b"k", 0),
        remove(b"none", 1),
        remove(b"rate", 1),
    ]
}

/// A full bank, and a record more: the dead ones stay behind.
fn moved() -> Vec<Call> {
    vec![fill_and(0), remove(b"k", 0), put(b"k", b"", 0), Call::commit(BANK)]
}
