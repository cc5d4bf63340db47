//! The numbers that the header tells, and planted faults that are found.

use image::{number, Record, BANK};

use super::repeated::{self, GoesOn, Repeated};
use super::single::{self, Count, Single};
use super::steps::{Order, DOWNWARD, UPWARD};
use super::strikes::{formatted, struck, Strike};
use crate::describe::image::Image;
use crate::describe::{plan, Action, Call, Plan};
use crate::judge::{Comparison, Judge, Mode, Part};
use crate::store::book::PART;
use crate::store::lent::call;
use crate::store::lent::port::{Done, Port};
use crate::store::lent::state::{State, VALID};

/// What becomes of a strike count that is cut in an order.
fn cut(strike: Strike, order: &Order) -> Result<Count, String> {
    let mut count = Count::default();
    let (mut device, commit) = struck(Port::default(), strike)?;
    single::cut(&mut device, &commit, order, &mut count).map(|()| count)
}

fn count(points: u64, value_lost: u64, store_lost: u64) -> Result<Count, String> {
    Ok(Count { points, value_lost, store_lost })
}

#[test]
fn a_strike_count_is_lost_upward_and_kept_downward() {
    assert_eq!(cut(Strike::Second, &UPWARD), count(48, 33, 15));
    assert_eq!(cut(Strike::Second, &DOWNWARD), count(48, 0, 0));
    assert_eq!(cut(Strike::Moving, &UPWARD), count(64, 34, 0));
    assert_eq!(cut(Strike::Moving, &DOWNWARD), count(64, 0, 0));
}

/// Where users are told of power cuts.
const TOLD: [&str; 2] = [
    include_str!("../../../../../include/feqyondil.h"),
    include_str!("../../../../../docs/USING.md"),
];

#[test]
fn users_are_told_these_numbers() {
    let numbers = "the 48 cut points of a strike count that is committed in place, 33 lose the \
                   count and 15 the whole store; of the 64 of one whose bank moves, 34 lose the \
                   count.";
    for text in TOLD {
        let words: Vec<&str> = text.split_whitespace().filter(|w| *w != "*").collect();
        assert!(words.join(" ").contains(numbers));
    }
}

#[test]
fn another_order_is_found() {
    let state_first =
        Order { name: "state first", arrange: |bytes| bytes[1..].reverse(), keeps: true };
    let told = cut(Strike::Second, &state_first).unwrap_err();
    assert!(told.contains("insert of e9030000, key 737472696b6573, type 1"));
    assert!(told.ends_with(
        "state first, cut after 1 of 49 steps: another value, or none, under key \
         737472696b6573, type 1"
    ));
    // The header's limits are 0xFF, so that 16 bytes of it are programmed.
    let header_first =
        Order { name: "header first", arrange: |bytes| bytes[16..].reverse(), keeps: true };
    let told = cut(Strike::Moving, &header_first).unwrap_err();
    assert!(told.contains("header first, cut after 16 of 65 steps"), "{told}");
}

#[test]
fn upward_cuts_that_lose_nothing_are_told() {
    let lost = single::Cuts::default().numbers();
    let told = Single { port: Port::default() }.seen("", &lost).unwrap_err();
    assert!(told.starts_with("cuts: 0 of whose upward cuts"), "{told}");
}

/// Takes every byte behind the records as usable.
fn all_usable(done: &mut Done) {
    let Some(mut told) = State::read(done.state).filter(|_| done.call.is_none()) else {
        return;
    };
    for (i, entry) in told.entries.iter_mut().enumerate() {
        if entry.kind == VALID {
            entry.usable = number(done.work, i * PART + 4);
        }
    }
    done.state.copy_from_slice(&told.bytes());
}

#[test]
fn bytes_of_a_cut_write_taken_as_usable_are_found() {
    let port = Port { fault: Some(all_usable), ..Port::default() };
    let repeated = Repeated { port, goes_on: GoesOn::MoveFirst };
    let inputs = Part::drawn("", 2_000, plan()).inputs;
    let found = Judge::new(Mode::Short, 1).part(&repeated, "", inputs);
    let found = found.expect_err("a difference");
    let (actions, records) = (found.input.actions.len(), found.input.image.records());
    assert!(actions <= 5 && records <= 2, "{}\n{}", found.input, found.why);
    assert!(found.why.contains("cut after "), "{}", found.why);
}

fn insert(key: &[u8], value: &[u8]) -> Action {
    Action::Edit(Call::Made(call::Call::insert(key, value, 1)))
}

/// A commit cut at this cut point.
fn cut_after(j: usize) -> Action {
    Action::Cut(4 * (j - 1) + 3)
}

/// Going straight on loses something by the last commit, moving first does not.
fn needs_move(actions: Vec<Action>) {
    let image = Image::of(&[formatted(1), vec![0xFF; BANK]].concat());
    let plan = Plan { actions, image };
    let mut counts = [repeated::Count::default(); 2];
    let go = |goes_on, count: &mut _| Repeated { port: Port::default(), goes_on }.go(&plan, count);
    assert!(go(GoesOn::StraightOn, &mut counts[0]).is_err());
    go(GoesOn::MoveFirst, &mut counts[1]).unwrap();
    let commits = plan.actions.iter().filter(|a| **a == Action::Commit);
    let finished = commits.count() as u64;
    let lost = counts.map(|c| (c.cuts, c.finished, c.finished_lost));
    assert_eq!(lost, [(1, finished, 1), (1, finished, 0)]);
}

#[test]
fn going_straight_on_after_a_cut_loses_something() {
    // Of two new records the second is whole and the first is not begun; one of the first's size
    // brings the second back, which nobody inserted since.
    let again = [insert(b"a", b"1"), insert(b"b", b"1"), cut_after(39)];
    needs_move([&again[..], &[insert(b"c", b"1"), Action::Commit]].concat());
    // The same with a record within a value.
    let within = [insert(b"b", &Record::live(b"a", b"1").bytes()), cut_after(39)];
    needs_move([&within[..], &[insert(b"c", b""), Action::Commit]].concat());
    // A key of 0xFF: zeros of a checksum are programmed, and what is behind them is usable.
    let zeros = [insert(b"\xFF\xFF\xFF", b""), cut_after(2)];
    needs_move([&zeros[..], &[insert(b"c", b"1"), Action::Commit]].concat());
    // A zero behind the records is taken for erased when the store is opened anew.
    let zero = [insert(b"a", &[0]), cut_after(1), insert(b"c", b""), Action::Commit];
    let next = [Action::Reopen, insert(b"b", b"1"), Action::Commit];
    needs_move([&zero[..], &next].concat());
}
