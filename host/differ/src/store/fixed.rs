//! Runs without a random number: the fixed list of small images, each made for one thing to be
//! seen, also as text with the oracle's answers, and the bench case of two banks.

mod barrel;
mod callers;
mod careful;
mod commits;
pub mod edges;
mod figures;
mod pieces;
mod replay;
#[cfg(test)]
mod told;
pub mod two_banks;

use image::{put_number, Header, Record, BANK, COMMON_GUID, HEADER, RECORD};

use super::book::PART;
use super::lent::call::Call;
use super::run::Run;
use pieces::{ending, get, held, put, remove, value, Named};

/// The list's runs, and those that it cannot have: the oracle cannot be asked a call of theirs, or
/// they go on with a state that someone made.
pub fn runs() -> Vec<Run> {
    let others = [careful::others(), barrel::others(), callers::others()].concat();
    list().into_iter().chain(others).map(|(_, run)| run).collect()
}

/// The list with the oracle's answers.
pub fn text() -> Result<String, String> {
    replay::text(&list())
}

fn list() -> Vec<Named> {
    let mut out = openings();
    out.extend(ends());
    out.extend(edits());
    out.extend(keys());
    out.extend(kills());
    out.extend(figures::list());
    out.extend(commits::list());
    out.extend(careful::list());
    out.extend(barrel::list());
    out.extend(callers::list());
    out
}

/// Which banks there are, and which is active.
fn openings() -> Vec<Named> {
    let (empty, zeros) = (|| vec![0xFF; BANK], || vec![0; BANK]);
    let mut short = held(1);
    short.pop();
    let longest = [held(1), vec![0xA5; BANK - 1]].concat();
    let image = |banks: Vec<Vec<u8>>| Run::new(banks.concat(), vec![get(b"rate", 1)]);
    let only = |banks: Vec<Vec<u8>>| Run::new(banks.concat(), Vec::new());
    vec![
        ("65535-bytes", Run::new(short, Vec::new())),
        ("131071-bytes", Run::new(longest, vec![get(b"rate", 1)])),
        ("one-empty", only(vec![empty()])),
        ("one-invalid", only(vec![zeros()])),
        ("empty-and-invalid", only(vec![empty(), zeros()])),
        ("generations-3-5-5", image(vec![held(3), held(5), held(5)])),
        ("generations-5-3", image(vec![held(5), held(3)])),
        ("generations-0-0", image(vec![held(0), held(0)])),
        ("generations-0-1", image(vec![held(0), held(1)])),
        ("generations-large", image(vec![held(1), held(u32::MAX), held(1 << 31)])),
        ("empty-then-0", only(vec![empty(), held(0)])),
        ("invalid-then-0", only(vec![zeros(), held(0)])),
        ("empty-invalid-valid", image(vec![empty(), zeros(), held(1)])),
        ("valid-then-empty", image(vec![held(1), empty()])),
    ]
}

/// How the records of a bank end, and what reading ignores.
fn ends() -> Vec<Named> {
    let one = |size, then: &[u8]| Run::new(ending(size, then), vec![get(b"rate", 1)]);
    let mut crc = ending(BANK, &[]);
    crc[HEADER + 32] ^= 1;
    let mut version = ending(BANK, &[]);
    version[14] = 2;
    let mut ignored = ending(BANK, &[]);
    (ignored[15], ignored[HEADER + 3], ignored[HEADER + RECORD + 4]) = (255, 255, 255);
    let mut wrong = Record::live(b"rate", b"").bytes();
    wrong[0] = 0xAB;
    let mut long = Record::live(b"rate", b"").bytes();
    put_number(&mut long, 12, 65_536);
    let blank = [[0xFF; RECORD], [0; RECORD]].concat();
    let beside = |bank| Run::new([bank, held(1)].concat(), vec![get(b"rate", 1)]);
    vec![
        ("size-24", one(24, &[])),
        ("size-60", one(60, &[])),
        ("size-61", one(61, &[])),
        ("size-73-of-74", one(73, &[])),
        ("zeros-then-erased", one(BANK, &[0; RECORD])),
        ("erased-then-zero", one(BANK, &blank)),
        ("wrong-start", one(BANK, &wrong)),
        ("over-what-remains", one(BANK, &long)),
        ("wrong-crc-beside", beside(crc)),
        ("version-2-beside", beside(version)),
        ("reserved-255", Run::new(ignored, vec![put(b"rate", b"1", 1)])),
    ]
}

/// What inserts, removes and lookups do.
fn edits() -> Vec<Named> {
    let on = |calls: Vec<Call>| Run::new(held(1), calls);
    let both = [
        put(b"rate", b"new", 1),
        get(b"rate", 1),
        value(b"rate", 1),
        remove(b"rate", 1),
        get(b"rate", 1),
        value(b"rate", 1),
    ];
    let nothing = vec![remove(b"none", 0), remove(b"rate", 0)];
    let large = vec![put(b"k", &[0x41; 65_536], 0), value(b"k", 0)];
    let all_of_it = vec![0; PART - 74 - RECORD - 2];
    let all_of_it = vec![put(b"k", &all_of_it, 0), get(b"k", 0)];
    let past_size = vec![put(b"k", b"v", 1), get(b"k", 1)];
    let two = [held(1), held(2)].concat();
    vec![
        ("insert-and-remove", on(both.to_vec())),
        ("second-of-two", Run::new(two, both.to_vec())),
        ("remove-nothing", on(nothing)),
        ("value-of-65536", on(large)),
        ("total-131072", on(all_of_it)),
        ("size-61-insert", Run::new(ending(61, &[]), past_size)),
    ]
}

/// Which keys and types are the same.
fn keys() -> Vec<Named> {
    let on = |calls: Vec<Call>| Run::new(held(1), calls);
    let keys: [&[u8]; 5] = [b"rat", b"rates", b"", b"\0", b"\xFF\0rate"];
    let close = keys.iter().map(|k| put(k, k, 0));
    let close = close.chain(keys.iter().map(|k| value(k, 0)));
    let bare = vec![put(b"", b"", 1), get(b"", 1), value(b"", 1)];
    let types = vec![put(b"rate", b"common", 0), get(b"rate", 0), get(b"rate", 1)];
    let number = vec![put(b"k", b"v", u32::MAX), get(b"k", 1), get(b"k", 0)];
    let many = (0..12).map(|i| put(&[b'a' + i % 3], &[i; 5], u32::from(i % 2)));
    let many = many.chain([get(b"a", 0), get(b"b", 1), get(b"c", 0)]);
    vec![
        ("empty-key-and-value", on(bare)),
        ("key-a-no-value", on(vec![put(b"a", b"", 0), get(b"a", 0)])),
        ("close-keys", on(close.collect())),
        ("both-types", on(types)),
        ("type-4294967295", on(number)),
        ("twelve-inserts", on(many.collect())),
    ]
}

/// Which records an edit kills and a lookup passes over.
fn kills() -> Vec<Named> {
    let on = |records: &[Record], calls: Vec<Call>| {
        Run::new(image::bank(&Header::default(), records), calls)
    };
    let thrice = [b"1", b"2", b"3"].map(|v| Record::live(b"k", v));
    let dead = [0x7C, 0x7E, 0xFF, 0x3F, 0x7F].map(|state| Record {
        state,
        value: vec![state],
        ..Record::live(b"k", b"")
    });
    let guids = [COMMON_GUID, [9; 16], [0; 16]].map(|guid| Record {
        guid,
        attributes: 0x0102_0304,
        ..Record::live(b"k", &guid[..1])
    });
    let found = |typ| vec![get(b"k", typ), value(b"k", typ)];
    let after = |call: Call, typ| [found(typ), vec![call], found(typ)].concat();
    vec![
        ("three-live-removed", on(&thrice, after(remove(b"k", 1), 1))),
        ("three-live-replaced", on(&thrice, after(put(b"k", b"4", 1), 1))),
        ("three-live-other-type", on(&thrice, after(put(b"k", b"4", 0), 1))),
        ("dead-ones-stay", on(&dead, after(remove(b"k", 1), 1))),
        ("third-guids-removed", on(&guids, after(remove(b"k", 0), 0))),
        ("third-guids-replaced", on(&guids, after(put(b"k", b"", 0), 0))),
    ]
}
