//! Every call on 2 and 16 banks, nearly empty and full.

use std::cell::RefCell;
use std::hint::black_box;

use feqyondil::{Tables, CRC32_TABLE_ENTRIES};
use oracle::v3;

use crate::blocks;
use crate::case::{cases, strikes, Case, INSERT_ROOM, ROOM};
use crate::checksum::scalar;
use crate::lent::{Lent, BARREL, CAREFUL, OLD, PLAIN};
use crate::measure::{Contender, Report};
use crate::trusting::*;

/// The port's call on a key.
type PortCall = fn(&mut Lent, &[u8]) -> u32;
/// A name, and the Rust's and the port's call.
type Call = (&'static str, fn(&mut v3::Nvram, &[u8]) -> u32, PortCall);

/// Two calls of the port, and what is said of the second over the first.
type Both = (&'static str, [(&'static str, PortCall); 2]);

const EDITS: [Call; 3] = [
    ("insert", rust_insert::<false>, Lent::insert::<PLAIN, false>),
    ("barrel insert", rust_insert::<false>, Lent::insert::<BARREL, false>),
    ("remove", rust_remove, Lent::remove),
];
const BOTH_INSERTS: [Both; 1] = [(
    "barrel insert over the plain one",
    [
        ("port insert", Lent::insert::<PLAIN, false>),
        ("port barrel insert", Lent::insert::<BARREL, false>),
    ],
)];
const COMMITS: [Call; 4] = [
    ("commit in place", rust_commit, Lent::commit::<OLD>),
    ("careful commit in place", rust_commit, Lent::commit::<CAREFUL>),
    ("insert and commit", rust_insert::<true>, Lent::insert::<PLAIN, true>),
    ("whole image", rust_whole, Lent::whole),
];
/// Without a bar, and last, since every one leaves its bank for the next.
const MOVES: [Call; 2] = [
    ("commit with a move", rust_move, Lent::commit_moved::<OLD>),
    ("careful commit with a move", rust_move, Lent::commit_moved::<CAREFUL>),
];
const BOTH_COMMITS: [Both; 2] = [
    (
        "careful commit in place over the old one",
        [("port commit", Lent::commit::<OLD>), ("port careful commit", Lent::commit::<CAREFUL>)],
    ),
    (
        "careful commit with a move over the old one",
        [
            ("port commit", Lent::commit_moved::<OLD>),
            ("port careful commit", Lent::commit_moved::<CAREFUL>),
        ],
    ),
];

pub fn run(report: &mut Report) {
    report.say("call after call; the port first goes through its whole work area, 131,072 bytes");
    report.say("a bank, and refuses what is not sound; the Rust trusts its memory: its own");
    report.say("lookup, sums, insert and remove only walk a list, and stand beside without a bar");
    for case in &cases(ROOM) {
        calls(case, report);
        both(&BOTH_INSERTS, case, report);
    }
}

fn calls(case: &Case, report: &mut Report) {
    let (key, (mut lent, mut store)) = (&case.last().key, case.opened());
    let title = |call: &str| format!("{call}, {}", case.name);
    let contenders: &mut [Contender] = &mut [
        ("Rust parse", &mut rust_parse),
        ("port, which fills the work area", &mut |i| lent.open(i)),
    ];
    report.table(&title("open"), contenders, &case.image, Some(case.most));
    let mut entries = Box::new([0; CRC32_TABLE_ENTRIES]);
    let tables = Tables::new(&mut entries);
    let mut in_blocks = |key: &[u8]| rust_in_blocks(&tables, &lent, key);
    let mut trusting = |key: &[u8]| rust_lookup(&mut store, key);
    let contenders: &mut [Contender] = &mut [
        ("Rust, the same comparisons in blocks", &mut in_blocks),
        ("port", &mut |key| lent.lookup(key)),
        ("Rust get_variable, trusting", &mut trusting),
    ];
    report.table(&title("lookup"), contenders, key, Some(1.5));
    let contenders: &mut [Contender] = &mut [
        ("port lookup", &mut |key| lent.lookup(key)),
        ("port", &mut |key| lent.figures(key)),
        ("Rust, its own sums, trusting", &mut |key| rust_figures(&mut store, key)),
    ];
    report.table(&title("figures over a lookup of ours"), contenders, key, Some(1.2));
    for (call, rust, port) in EDITS {
        let contenders: &mut [Contender] = &mut [
            ("Rust, trusting", &mut |key| rust(&mut store, key)),
            ("port", &mut |key| port(&mut lent, key)),
        ];
        report.table(&title(call), contenders, key, None);
    }
}

/// Answers the value's place, as the port does.
fn rust_in_blocks(tables: &Tables, lent: &Lent, key: &[u8]) -> u32 {
    let found = blocks::lookup(tables, &lent.state, &lent.work, key, true);
    found.map_or(0, |found| found.map_or(0, |(place, _)| place as u32))
}

pub fn run_commits(report: &mut Report) {
    report.say("as above; the Rust's writer takes the bytes and does nothing with them");
    let strikes = [2, 16].map(|n| Case::new(n, "full of strike counts", strikes(INSERT_ROOM), 1.5));
    for case in cases(INSERT_ROOM).into_iter().chain(strikes) {
        commits(&case, report);
        both(&BOTH_COMMITS, &case, report);
    }
}

fn commits(case: &Case, report: &mut Report) {
    let (key, (mut lent, mut store)) = (&case.last().key, case.opened());
    let mut checksums = |_: &[u8]| checksums(case);
    for (i, (call, rust, port)) in COMMITS.into_iter().chain(MOVES).enumerate() {
        let contenders: &mut [Contender] = &mut [
            ("Rust", &mut |key| rust(&mut store, key)),
            ("port", &mut |key| port(&mut lent, key)),
            ("crc32fast, scalar, of every value once", &mut checksums),
        ];
        let title = format!("{call}, {}", case.name);
        // With 2 banks the ratios have a bar.
        let barred = case.banks == 2 && i < COMMITS.len();
        report.table(&title, contenders, key, barred.then_some(case.most));
    }
}

/// Each on the same state and work area.
fn both(calls: &[Both], case: &Case, report: &mut Report) {
    let (key, (lent, _)) = (&case.last().key, case.opened());
    let lent = RefCell::new(lent);
    for (call, [(first, one), (second, other)]) in calls {
        let contenders: &mut [Contender] = &mut [
            (first, &mut |key| one(&mut lent.borrow_mut(), key)),
            (second, &mut |key| other(&mut lent.borrow_mut(), key)),
        ];
        let title = format!("{call} of ours, {}", case.name);
        report.table(&title, contenders, key, Some(1.03));
    }
}

/// In sum the checksums of every value of every bank, which refusal 6 asks for.
fn checksums(case: &Case) -> u32 {
    let records = (0..case.banks).flat_map(|_| black_box(&case.records));
    records.map(|r| scalar(&r.value)).fold(0, u32::wrapping_add)
}

#[cfg(test)]
mod tests {
    use super::*;
    use oracle::Nvram;

    /// Both sides do these calls, twice, and the port is left as it was.
    fn check<'a>(case: &'a Case, calls: &[Call]) -> (Lent, v3::Nvram<'a>) {
        let (key, (mut lent, mut store)) = (&case.last().key, case.opened());
        let (state, work) = (lent.state, lent.work.clone());
        for (call, rust, port) in calls.iter().chain(calls) {
            assert_eq!(rust(&mut store, key), 1, "{call}");
            assert_eq!(port(&mut lent, key), 1, "{call}");
            assert!((&lent.state, &lent.work) == (&state, &work), "{call}");
        }
        let bank = peek::active_bank(&mut store);
        assert_eq!(bank.values.len(), case.records.len());
        (lent, store)
    }

    #[test]
    fn lookups_and_edits_do_what_they_are_timed_for() {
        for case in &cases(ROOM)[..2] {
            let (key, (lent, mut store)) = (&case.last().key, check(case, &EDITS));
            let mut entries = [0; CRC32_TABLE_ENTRIES];
            let place = rust_in_blocks(&Tables::new(&mut entries), &lent, key);
            assert_eq!((place > 0, lent.lookup(key)), (true, place));
            assert_eq!(rust_lookup(&mut store, key), 1);
            assert_eq!(lent.figures(key) as usize, case.records.len());
            assert_eq!(rust_figures(&mut store, key), 1);
        }
    }

    #[test]
    fn commits_do_what_they_are_timed_for() {
        for case in &cases(INSERT_ROOM)[..2] {
            let (key, (mut lent, mut store)) = (&case.last().key, check(case, &COMMITS));
            assert_eq!(store.serialize().unwrap(), lent.output);
            for (generation, (call, rust, port)) in (3..7).zip(MOVES.iter().cycle()) {
                assert_eq!((rust(&mut store, key), port(&mut lent, key)), (1, 1), "{call}");
                let bank = peek::active_bank(&mut store);
                assert_eq!(bank.header.generation, generation);
                assert_eq!(bank.values.len(), case.records.len());
                let at = lent.active() * feqyondil::PART_SIZE;
                assert_eq!(image::number(&lent.work, at + 8), generation);
                let total = bank.values.iter().map(|v| v.key.len() + v.value.len() + 37);
                assert_eq!(lent.total(), image::HEADER + total.sum::<usize>());
            }
            let crcs = case.records.iter().map(|r| crc32fast::hash(&r.value));
            let sum = crcs.fold(0, u32::wrapping_add);
            assert_eq!(checksums(case), sum.wrapping_mul(case.banks as u32));
        }
    }
}
