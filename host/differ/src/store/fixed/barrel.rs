//! Fixed runs with barrel inserts, by N5 of the change requests (02): what is told of each is the
//! numbers that its inserts answer.

use image::{Header, Record, BANK, COMMON_GUID, RECORD};

use super::pieces::{held, put, remove, sized, value, Named, Numbered};
use crate::store::book::PART;
use crate::store::lent::call::{Call, Caller};
use crate::store::run::Run;

const KEY: &[u8] = b"tune";
/// Bytes of a record under it with a value of 512 bytes.
const LONGEST: usize = RECORD + KEY.len() + 1 + 512;

/// Those that the Rust can be asked: every call of them is accepted.
pub fn list() -> Vec<Named> {
    lengths().into_iter().chain(places()).chain(moves()).map(|told| told.0).collect()
}

/// Those with a call that the Rust cannot be asked.
pub fn others() -> Vec<Named> {
    ceiling().into_iter().chain(order()).map(|told| told.0).collect()
}

/// Values about the longest; the clock has no such limit. The last one leaves no byte of the work
/// area.
fn lengths() -> Vec<Numbered> {
    let about = [barrel(511), barrel(512), plain(513), barrel(0)];
    vec![
        (("barrel-about-512", looked(held(1), &about)), &[0, 0, 0, 0]),
        (("barrel-total-131072", looked(held(1), &[fill(LONGEST), barrel(512)])), &[0, 0]),
    ]
}

/// Either insert takes the place of the other's value, and there is one remove.
fn places() -> Vec<Numbered> {
    let gone = remove(KEY, 0);
    let types = [0, 1].map(|typ| Call::barrel(b"rate", b"1", typ));
    let types = [&types[..], &[remove(b"rate", 1)]].concat();
    let thrice = [b"1", b"2", b"3"].map(|v| Record { guid: COMMON_GUID, ..Record::live(KEY, v) });
    let thrice = image::bank(&Header::default(), &thrice);
    vec![
        (("barrel-for-plain", looked(held(1), &[plain(600), barrel(5), gone.clone()])), &[0, 0]),
        (("plain-for-barrel", looked(held(1), &[barrel(5), plain(600), gone.clone()])), &[0, 0]),
        (("barrel-for-three-live", looked(thrice, &[barrel(512), gone])), &[0]),
        (("barrel-both-types", looked(held(1), &types)), &[0, 0]),
    ]
}

/// Three moves, to the second bank first, that barrel inserts alone pay for: three records bring
/// the first bank one byte over its size, and two records each bank that was moved to.
fn moves() -> Vec<Numbered> {
    let bank = |generation| sized(74 + 3 * LONGEST - 1, generation);
    let commit = Call::careful(BANK).by(Caller::BARREL);
    let calls = (0..7).flat_map(|i| [Call::barrel(KEY, &[i; 512], 0), commit.clone()]);
    let run = Run::new([bank(1), bank(0)].concat(), calls.collect());
    vec![(("barrel-moves", run), &[0; 7])]
}

/// 513 bytes are refused; 512 too where the work area has no room for them.
fn ceiling() -> Vec<Numbered> {
    let about = vec![barrel(511), barrel(512), barrel(513), found(), plain(513), barrel(513)];
    let full = vec![fill(0), barrel(513), barrel(512), plain(513), barrel(0), remove(KEY, 0)];
    let nearly = vec![fill(LONGEST - 1), barrel(513), barrel(512), barrel(511), barrel(513)];
    let longer = vec![barrel(PART), plain(PART)];
    vec![
        (("barrel-513", Run::new(held(1), about)), &[0, 0, 15, 0, 15]),
        (("barrel-without-room", Run::new(held(1), full)), &[0, 15, 8, 8, 8]),
        (("barrel-room-for-511", Run::new(held(1), nearly)), &[0, 15, 8, 0, 15]),
        (("barrel-131072", Run::new(held(1), longer)), &[15, 8]),
    ]
}

/// 7 comes before 15; after 15 a value is found as before, and a commit writes as before.
fn order() -> Vec<Numbered> {
    let no_active = [vec![0; BANK], held(0)].concat();
    let after = vec![barrel(5), barrel(513), found(), Call::commit(BANK), found()];
    vec![
        (("barrel-without-active", Run::new(no_active, vec![barrel(513), barrel(512)])), &[7, 7]),
        (("barrel-commit-after-15", Run::new(held(1), after)), &[0, 15]),
    ]
}

fn barrel(len: usize) -> Call {
    Call::barrel(KEY, &vec![0x42; len], 0)
}

fn plain(len: usize) -> Call {
    put(KEY, &vec![0x43; len], 0)
}

fn found() -> Call {
    value(KEY, 0)
}

/// Each call, and behind it the value and the figures.
fn looked(image: Vec<u8>, calls: &[Call]) -> Run {
    let each = calls.iter().flat_map(|call| [call.clone(), found(), Call::figures()]);
    Run::new(image, each.collect())
}

/// A value under `k` that leaves so many bytes of the work area beside `rate`.
fn fill(left: usize) -> Call {
    put(b"k", &vec![0x41; PART - 74 - RECORD - 2 - left], 1)
}

#[cfg(test)]
mod tests {
    use super::super::told::{counted, hold};
    use super::*;
    use crate::store::lent::call::BARREL;
    use crate::store::run::counts::{ACCEPTED_PAIRS, ERASES, MOVES, PAIRS, RUST_CALLED};
    use crate::store::run::wear::Pair;

    #[test]
    fn the_runs_answer_what_is_told() {
        let all = [lengths(), places(), moves(), ceiling(), order()].concat();
        hold(all, &["inserts", BARREL]);
    }

    #[test]
    fn the_rust_is_asked_every_call_of_the_list() {
        for (name, _) in list() {
            let (run, counts) = counted(list(), name);
            assert_eq!(counts.others.of(RUST_CALLED), run.calls.len() as u64, "{name}");
        }
    }

    /// Between two erase requests each bank is one byte over its size when it moves: no fewer bytes
    /// are possible.
    #[test]
    fn moves_by_barrel_inserts_alone_meet_the_bound_exactly() {
        let (_, counts) = counted(list(), "barrel-moves");
        let pair = Pair { inserted: 2_212, banks: 2, size: 1_732, most: 627 };
        assert_eq!(counts.fewest, Some(pair));
        let of = |name| counts.others.of(name);
        assert_eq!((of(MOVES), of(ERASES), of(PAIRS), of(ACCEPTED_PAIRS)), (3, 3, 1, 1));
        assert_eq!((of(BARREL), of("inserts")), (7, 0));
    }
}
