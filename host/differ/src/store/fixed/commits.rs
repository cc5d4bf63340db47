//! The runs of the fixed list with commits and whole images.

use image::{put_number, Header, Record, BANK, COMMON_GUID, RECORD};

use super::pieces::{
    dead_past_size, ending, fill_and, get, held, put, remove, unlimited, value, whole, Named,
};
use crate::store::lent::call::{Call, Caller};
use crate::store::run::Run;

pub fn list() -> Vec<Named> {
    let mut out = in_place();
    out.extend(moves());
    out.extend(limits());
    out.extend(over_size());
    out.extend(sizes());
    out
}

/// Commits that leave the bank where it is.
fn in_place() -> Vec<Named> {
    let on = |calls: Vec<Call>| Run::new(held(1), calls);
    let twice = vec![
        put(b"rate", b"1", 1),
        commit(),
        put(b"rate", b"2", 1),
        remove(b"none", 0),
        commit().by(Caller::BARREL),
        value(b"rate", 1),
    ];
    let second = [held(1), held(2)].concat();
    let dead = [0x7C, 0x7E, 0x7F].map(|state| Record { state, ..Record::live(b"k", b"v") });
    let dead = image::bank(&Header::default(), &dead);
    let empty = vec![0xFF; BANK];
    let joined = [ending(200, &[]), vec![0; BANK], held(1)].concat();
    let no_active = [empty, held(0)].concat();
    vec![
        ("commit-and-whole", on(vec![commit(), whole(1)])),
        ("commit-after-edits", on(twice)),
        ("commit-second-of-two", Run::new(second, vec![put(b"k", b"v", 0), commit(), whole(2)])),
        ("dead-ones-are-written", Run::new(dead, vec![commit(), remove(b"k", 1), commit()])),
        ("whole-of-two-sizes", Run::new(joined, vec![whole(3)])),
        ("whole-without-active", Run::new(no_active, vec![whole(2)])),
    ]
}

/// Commits that move it: a full bank, then one byte more. The bank that was left is over its size
/// from then on, so only one that moves onto itself has a whole image.
fn moves() -> Vec<Named> {
    let (empty, zeros) = (|| vec![0xFF; BANK], || vec![0; BANK]);
    let on = |banks: Vec<Vec<u8>>| Run::new(banks.concat(), full_and_more());
    let full = [0, 1, 2, 3].map(|i| put(b"k", &[i; BANK - 74 - RECORD - 2], 0));
    let callers = [Caller::CLOCK, Caller::BARREL].into_iter().cycle();
    let round =
        full.iter().zip(callers).flat_map(|(put, caller)| [put.clone(), commit().by(caller)]);
    let three = [unlimited(held(7)), held(5), held(6)].concat();
    let whole_too = [full_and_more(), vec![whole(1)]].concat();
    vec![
        ("move-to-empty", on(vec![held(2), empty()])),
        ("move-to-invalid", on(vec![held(2), zeros()])),
        ("move-to-valid", on(vec![held(2), held(1)])),
        ("move-to-the-first", on(vec![held(1), held(2)])),
        ("move-onto-itself", Run::new(held(1), whole_too)),
        ("move-to-the-last-generation", on(vec![held(u32::MAX - 1), held(3)])),
        ("move-round-three", Run::new(three, round.clone().collect())),
        ("move-round-one", Run::new(unlimited(held(1)), round.collect())),
    ]
}

/// Which records a limit counts.
fn limits() -> Vec<Named> {
    let limited = |system: u32, common: u32, records: &[Record]| {
        let header = Header { system_limit: system, common_limit: common, ..Header::default() };
        image::bank(&header, records)
    };
    let guid = |guid| Record { guid, ..Record::live(b"k", b"v") };
    let third = limited(0, 0, &[guid([9; 16]), guid([0; 16])]);
    let system = limited(39, 0, &[Record::live(b"k", b"v")]);
    let common = limited(0, 39, &[guid(COMMON_GUID)]);
    let past = |typ| vec![commit(), put(b"k", b"vv", typ), commit(), remove(b"k", typ), commit()];
    let both = vec![put(b"k", b"v", 0), put(b"k", b"v", 1), commit()];
    vec![
        ("third-guids-count-in-no-limit", Run::new(third, vec![commit()])),
        ("system-limit", Run::new(system, past(1))),
        ("common-limit", Run::new(common, past(0))),
        ("both-limits", Run::new(limited(0, 0, &[]), both)),
    ]
}

/// What is too much after a move.
fn over_size() -> Vec<Named> {
    let over = vec![
        fill_and(0),
        put(b"more", b"", 1),
        commit(),
        commit(),
        get(b"rate", 1),
        remove(b"more", 1),
        commit(),
    ];
    // With one bank none is left that is over its size.
    let over_and_whole = [over.clone(), vec![whole(1)]].concat();
    let empty = [unlimited(held(1)), vec![0xFF; BANK]].concat();
    let valid = [unlimited(held(1)), held(1)].concat();
    vec![
        ("over-after-the-move", Run::new(unlimited(held(1)), over_and_whole)),
        ("over-after-a-move-to-empty", Run::new(empty, over.clone())),
        ("over-after-a-move-to-valid", Run::new(valid, over)),
    ]
}

/// Sizes below 65,536, and ends of what is usable before them.
fn sizes() -> Vec<Named> {
    let small = |then: &[u8]| [unlimited(ending(200, then)), vec![0; BANK]].concat();
    let mut wrong = Record::live(b"rate", b"").bytes();
    put_number(&mut wrong, 0, 0x7F_55AB);
    let blank = [[0xFF; RECORD], [0; RECORD]].concat();
    let exact = vec![
        put(b"a", &[1; 200 - 74 - RECORD - 2], 0),
        commit(),
        remove(b"a", 0),
        put(b"b", b"", 0),
        commit(),
        get(b"rate", 1),
    ];
    let one = vec![put(b"a", b"", 0), commit(), whole(2)];
    vec![
        ("size-200-moves", Run::new(small(&[]), exact)),
        ("usable-110-moves", Run::new(small(&blank), one.clone())),
        ("usable-74-moves", Run::new(small(&wrong), one)),
        ("usable-74-stays", Run::new(small(&wrong), vec![commit()])),
        ("dead-past-size-moves", Run::new(dead_past_size(), vec![commit(), whole(1)])),
    ]
}

/// 65,536 bytes are written in place, a record more moves the bank.
fn full_and_more() -> Vec<Call> {
    vec![
        fill_and(0),
        remove(b"k", 0),
        commit(),
        put(b"k", b"", 0),
        commit(),
        get(b"rate", 1),
        value(b"k", 0),
    ]
}

fn commit() -> Call {
    Call::commit(BANK)
}
