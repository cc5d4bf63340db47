//! The reading of banks: the port against the Rust on the domain where both are to be equal, and
//! against the scope paper's words (01) everywhere; and why it stopped, against those of N2.

mod causes;
mod edges;

use image::{Header, BANK, HEADER};
use proptest::prelude::*;
use proptest::sample::select;

use crate::describe::{self, slot, Bytes, Style};
use crate::judge::{Comparison, Mode, Numbers, Part};
use crate::partition::cause::{kind, parting, Causes, PortCause};
use crate::partition::lent::{self, Lending, GUARD};
use crate::partition::model::{self, Outside};
use crate::partition::slot::Slot;
use crate::partition::{rust, Read};

/// How the port reads the first bank of an image; the tests plant faults here.
pub type PortReader = for<'a> fn(&[u8], Lending, &'a mut Vec<u8>) -> Read<'a>;

pub struct Banks {
    port: PortReader,
    cause: PortCause,
    /// What follows the bank in its image: a Valid bank without records, then random bytes.
    next: Vec<u8>,
}

/// A bank, and how it is lent.
#[derive(Clone, Debug)]
pub struct Input {
    pub slot: describe::Slot,
    pub how: Lending,
}

impl Banks {
    pub fn new(port: PortReader, cause: PortCause) -> Self {
        let header = Header::new(HEADER as u32, 1);
        let next = describe::Slot::bank(header, Vec::new(), Bytes::Random(BANK, 1)).made();
        Banks { port, cause, next }
    }
}

impl Comparison for Banks {
    type Input = Input;
    type Counts = Numbers;
    const NAME: &'static str = "bank";

    fn parts(&self, mode: Mode) -> Vec<Part<Input>> {
        // In the short mode a share of the edges, of every kind; in the long one each of them.
        let edges = edges::all().step_by(mode.pick(17, 1, 1)).enumerate();
        let edges = edges.map(|(i, slot)| Input { slot, how: nth(i) });
        vec![
            Part::each("of each cause", fixed()),
            Part::each("at boundaries", edges),
            Part::drawn("random", mode.pick(3_200, 130_000, 0), random()),
        ]
    }

    /// The Rust only on the domain.
    fn compare(&self, input: &Input) -> Result<Numbers, String> {
        let how = input.how;
        let mut image = vec![0; how.start];
        image.extend(input.slot.made());
        image.extend(&self.next);
        let image = &image[how.start..];
        let said = model::read(&image[..BANK]);
        let mut buffer = Vec::new();
        let port = (self.port)(image, how, &mut buffer);
        let cause = lent::cause(self.cause, image, how);
        let rust = said.outside.is_none().then(|| rust::read(image));
        // Either reads the bank as what its cause makes it.
        let equal = |read: &Read| {
            let read = read.as_ref();
            read == Ok(&said.slot) && read.map(Slot::kind) == Ok(kind(said.cause))
        };
        if equal(&port) && rust.as_ref().map_or(true, equal) && cause == Ok(said.cause) {
            return Ok(counted(&said));
        }
        let rust = match rust {
            Some(answer) => text(answer),
            None => "not asked: outside the domain".to_string(),
        };
        let (slot, port, parting) = (said.slot, text(port), parting(said.cause, &cause));
        Err(format!("  Rust: {rust}\n  01:   {slot}\n  port: {port}\n{parting}"))
    }
}

/// Those of each cause.
pub fn fixed() -> impl Iterator<Item = Input> {
    let banks = causes::all().into_iter().enumerate();
    banks.map(|(i, (_, slot))| Input { slot, how: nth(i) })
}

/// Bytes behind the bank and in the part, and lengths that are short of one.
const MORE: [usize; 5] = [0, 1, 36, 777, BANK];
const SHORT: [usize; 5] = [BANK - 1, 0, 1, 24, 777];

pub fn random() -> impl Strategy<Value = Input> {
    let both = (slot(&Style::any()), lending());
    both.prop_map(|(slot, how)| Input { slot, how })
}

fn lending() -> impl Strategy<Value = Lending> {
    let more = || prop_oneof![select(&MORE[..]), 0..=BANK];
    let short = prop_oneof![select(&SHORT[..]), 0..BANK];
    let parts = (0..GUARD, more(), more(), short);
    parts.prop_map(|(start, nvr, part, short)| Lending {
        start,
        nvr: BANK + nvr,
        part: BANK + part,
        short,
    })
}

/// One way after another.
fn nth(i: usize) -> Lending {
    Lending {
        start: i % GUARD,
        nvr: BANK + MORE[i % MORE.len()],
        part: BANK + MORE[i / MORE.len() % MORE.len()],
        short: SHORT[i % SHORT.len()],
    }
}

fn text(answer: Read) -> String {
    answer.map_or_else(|fault| fault, |slot| slot.to_string())
}

/// What a bank is counted as.
fn counted(read: &model::Reading) -> Numbers {
    let records = match &read.slot {
        Slot::Valid(bank) => Some(bank.records.len() as u64),
        _ => None,
    };
    let outside = |why| u64::from(read.outside == Some(why));
    let is = u64::from;
    let numbers = [
        ("banks as 01 says", 1),
        ("of them equal to the Rust", is(read.outside.is_none())),
        ("outside its domain by size", outside(Outside::Size)),
        ("by name", outside(Outside::Name)),
        ("by sum", outside(Outside::Sum)),
        ("Valid", is(records.is_some())),
        ("records", records.unwrap_or(0)),
        ("Empty", is(read.slot == Slot::Empty)),
        ("Invalid", is(read.slot == Slot::Invalid)),
    ];
    // Of each bank too few bytes were lent too.
    let mut causes = Causes::of(None);
    causes += Causes::of(Some(read));
    Numbers::of(&[&numbers[..], &causes.numbers()].concat())
}
