//! A call on a state and a work area that may be anything: a store's, and what damaged them.

use std::fmt::{self, Display, Formatter};

use ::image::{number, put_number, HEADER};
use proptest::prelude::*;
use proptest::sample::select;

use super::bank::keep;
use super::bytes::{lend, Bytes};
use super::call::{call, calls, commit, Call, Reach};
use super::damage::{damage, field, numbers, Damage, Place};
use super::image::{image, Image};
use super::list::{list, needed};
use super::run::{made_calls, standing, RECORDS};
use super::style::Style;
use super::tallies::tallies;
use crate::store::book::{Book, Slot, PART};
use crate::store::fuzz;
use crate::store::lent::state::{entry_at, total_at, usable_at, State, Tallies, ENTRIES, STATE};
use crate::store::lent::Standing;

#[derive(Clone, Debug, PartialEq)]
pub struct Case {
    pub calls: Vec<Call>,
    pub image: Image,
    pub tallies: Tallies,
    pub damages: Vec<StateDamage>,
    /// The one that is compared.
    pub call: Call,
    pub standing: Standing,
}

/// What is done to state and work area.
#[derive(Clone, Debug, PartialEq)]
pub enum StateDamage {
    /// To the state, whose records are its entries.
    State(Damage),
    /// To the part of a bank.
    Part(usize, Damage),
    /// The last record of a bank goes from its part, from its total, or from both.
    Shorter(usize, bool, bool),
    /// A name of a bank's record ends so much later, and the record where it did.
    Name(usize, usize, u32),
    /// No byte behind the active bank's header is usable, so that a commit has to move its records.
    /// That leaves it sound.
    Due,
    /// So many bytes more or less of either are lent.
    Lend(isize, isize),
    /// All bytes of both.
    Random(u64),
}

impl Case {
    /// Of an opening that is refused, what it leaves.
    pub fn made(&self) -> fuzz::Case {
        let image = self.image.made();
        let mut book = Book::open(&image, usize::MAX).ok();
        let calls = made_calls(&self.calls, book.clone(), Reach::Free);
        if let Some(book) = &mut book {
            calls.iter().for_each(|call| drop(book.answer(call)));
            book.tallies = self.tallies;
        }
        let state = book.as_ref().map_or([0; STATE], |b| b.state().bytes());
        let mut case = fuzz::Case {
            state: state.to_vec(),
            work: book.as_ref().map_or(vec![0; PART], Book::work),
            call: self.call.made(book.as_ref(), Reach::Free),
        };
        let slots = book.map_or(Vec::new(), |book| book.slots);
        for damage in &self.damages {
            damage.apply(&mut case, &slots);
        }
        case
    }
}

impl StateDamage {
    fn apply(&self, case: &mut fuzz::Case, slots: &[Slot]) {
        match self {
            StateDamage::State(damage) => {
                let entries: Vec<usize> = (0..ENTRIES).map(entry_at).collect();
                damage.apply(&mut case.state, &entries);
            }
            StateDamage::Lend(state, work) => {
                lend(&mut case.state, *state);
                lend(&mut case.work, *work);
            }
            StateDamage::Random(seed) => {
                case.state = Bytes::Random(case.state.len(), *seed).made();
                case.work = Bytes::Random(case.work.len(), *seed).made();
            }
            StateDamage::Part(i, _) | StateDamage::Shorter(i, ..) | StateDamage::Name(i, ..) => {
                self.in_bank(case, slots, i % slots.len().max(1));
            }
            StateDamage::Due => {
                let state = State::read(&case.state).unwrap_or_default();
                self.in_bank(case, slots, state.active as usize);
            }
        }
    }

    fn in_bank(&self, case: &mut fuzz::Case, slots: &[Slot], i: usize) {
        let Some(part) = case.work.get_mut(i * PART..(i + 1) * PART) else {
            return;
        };
        let (starts, total) = match slots.get(i) {
            Some(Slot::Valid(bank)) => (bank.starts(), bank.total()),
            _ => (Vec::new(), 0),
        };
        match (self, starts.last()) {
            (StateDamage::Part(_, damage), _) => {
                let mut bytes = part.to_vec();
                damage.apply(&mut bytes, &starts);
                part.copy_from_slice(&bytes);
            }
            (StateDamage::Shorter(_, of_part, of_total), Some(&last)) => {
                if *of_part {
                    part[last..total].fill(0xFF);
                }
                if *of_total && case.state.len() >= STATE {
                    put_number(&mut case.state, total_at(i), last as u32);
                }
            }
            (StateDamage::Name(_, record, more), Some(_)) => {
                let record = &mut part[starts[record % starts.len()]..];
                let (name, value) = (number(record, 8), number(record, 12));
                put_number(record, 8, name.wrapping_add(*more));
                put_number(record, 12, value.wrapping_sub(*more));
            }
            (StateDamage::Due, Some(_)) if case.state.len() >= STATE => {
                put_number(&mut case.state, usable_at(i), HEADER as u32);
            }
            _ => {}
        }
    }
}

impl Display for Case {
    fn fmt(&self, f: &mut Formatter) -> fmt::Result {
        writeln!(f, "{}", self.image)?;
        for (i, call) in self.calls.iter().enumerate() {
            writeln!(f, "  call {}: {call:?}", i + 1)?;
        }
        let (damages, call) = (&self.damages, self.made().call);
        write!(f, "  {:?}, {:?}", self.tallies, self.standing)?;
        write!(f, "\n  damages: {damages:?}\n  then: {call} ({:?})", self.call)
    }
}

/// Places of the numbers at a state's front; of an entry's, and of the next one's kind.
const PLACES: [usize; 4] = [0, 4, 8, 12];

fn state_damage() -> impl Strategy<Value = StateDamage> {
    let bank = || 0..16usize;
    let more = select(&[1, u32::MAX, 1 << 16][..]);
    let state = select(&[0, 0, 1, 90, -1, -4, -207, -208][..]);
    let work = prop_oneof![Just(0), select(&[-1, 1, 77][..]), -(PART as isize)..PART as isize];
    let flip = (field(&PLACES), 0..8u8).prop_map(|(at, bit)| Damage::Flip(at, bit));
    let end = (select(&[0, 1, PART - 1][..]), 0..8u8);
    let end = end.prop_map(|(offset, bit)| Damage::Flip(Place { record: 0, offset }, bit));
    let part = prop_oneof![6 => damage(), 1 => end];
    let shorter = (bank(), any::<bool>(), any::<bool>());
    prop_oneof![
        5 => prop_oneof![4 => numbers(&PLACES), 1 => flip].prop_map(StateDamage::State),
        7 => (bank(), part).prop_map(|(i, damage)| StateDamage::Part(i, damage)),
        1 => shorter.prop_map(|(i, part, total)| StateDamage::Shorter(i, part, total)),
        1 => (bank(), 0..40usize, more).prop_map(|(i, at, more)| StateDamage::Name(i, at, more)),
        2 => (state, work).prop_map(|(state, work)| StateDamage::Lend(state, work)),
        1 => any::<u16>().prop_map(|seed| StateDamage::Random(seed.into())),
        1 => Just(StateDamage::Due),
    ]
}

/// A store after a few calls, any tallies, and up to two damages, of which some leave it sound.
pub fn case(alone: bool) -> impl Strategy<Value = Case> {
    let style = Style::store();
    of_store(&style, list(state_damage(), 2), call(&style), alone)
}

/// A commit of a store after a few calls, with any tallies, whose active bank has to move.
pub fn moving_case(alone: bool) -> impl Strategy<Value = Case> {
    let style = Style::small();
    of_store(&style, Just(vec![StateDamage::Due]), commit(&style), alone)
}

fn of_store(
    style: &Style,
    damages: impl Strategy<Value = Vec<StateDamage>>,
    call: impl Strategy<Value = Call>,
    alone: bool,
) -> impl Strategy<Value = Case> {
    let standing = standing(alone);
    (image(style), calls(style, 6), tallies(), damages, call, standing, needed(RECORDS)).prop_map(
        |(mut image, calls, tallies, damages, call, standing, needed)| {
            keep(&mut image.slots, &needed);
            Case { calls, image, tallies, damages, call, standing }
        },
    )
}
