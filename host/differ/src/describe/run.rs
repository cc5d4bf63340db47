//! Runs: an image, what is lent, and calls.

use std::fmt::{self, Display, Formatter};

use proptest::prelude::*;
use proptest::sample::select;

use super::bank::keep;
use super::call::{calls, Call, Reach};
use super::image::{image, Image};
use super::list::needed;
use super::style::Style;
use super::tallies::tallies;
use crate::store::book::Book;
use crate::store::lent::call;
use crate::store::lent::state::{Tallies, STATE};
use crate::store::lent::Standing;
use crate::store::run;

#[derive(Clone, Debug, PartialEq)]
pub struct Run {
    pub calls: Vec<Call>,
    pub image: Image,
    pub reach: Reach,
    /// Bytes of state, and of work area beyond those that the banks need.
    pub state: usize,
    pub spare: isize,
    /// What is put into the opened state.
    pub tallies: Tallies,
    pub standing: Standing,
    /// Goes through the crate's `Store` too.
    pub by_store: bool,
}

impl Run {
    /// Of a run that is made already.
    pub fn of(made: &run::Run) -> Self {
        Run {
            calls: made.calls.iter().cloned().map(Call::Made).collect(),
            image: Image::of(&made.image),
            reach: Reach::Free,
            state: made.state,
            spare: made.spare,
            tallies: made.tallies,
            standing: made.standing,
            by_store: false,
        }
    }

    pub fn made(&self) -> run::Run {
        let mut made = run::Run {
            image: self.image.made(),
            state: self.state,
            spare: self.spare,
            tallies: self.tallies,
            standing: self.standing,
            calls: Vec::new(),
        };
        made.calls = made_calls(&self.calls, made.opened().ok(), self.reach);
        made
    }
}

/// Each on the store that those before it leave.
pub fn made_calls(calls: &[Call], mut book: Option<Book>, reach: Reach) -> Vec<call::Call> {
    let mut out = Vec::with_capacity(calls.len());
    for call in calls {
        let call = call.made(book.as_ref(), reach);
        if let Some(book) = &mut book {
            book.answer(&call);
        }
        out.push(call);
    }
    out
}

impl Display for Run {
    fn fmt(&self, f: &mut Formatter) -> fmt::Result {
        let made = self.made();
        writeln!(f, "{}", self.image)?;
        let (state, work) = (self.state, made.work());
        write!(f, "  {state} bytes of state, {work} of work area, ")?;
        write!(f, "{:?}, by `Store` too: {}, {:?}", self.standing, self.by_store, self.tallies)?;
        for (i, (call, made)) in self.calls.iter().zip(&made.calls).enumerate() {
            write!(f, "\n  call {}: {made} ({call:?})", i + 1)?;
        }
        Ok(())
    }
}

/// Records of an image that are tried to be dropped at the end.
pub const RECORDS: usize = 16;

/// How buffers stand; alone for a memory checker.
pub fn standing(alone: bool) -> BoxedStrategy<Standing> {
    match alone {
        true => Just(Standing::Alone).boxed(),
        false => (0..64usize).prop_map(Standing::Guarded).boxed(),
    }
}

/// Where its inserts go as far as they go, now and then more is lent than needed, or less. Of four
/// runs one goes on with tallies that someone put in.
pub fn run(style: &Style, most: usize, alone: bool) -> impl Strategy<Value = Run> {
    let state = select(&[0, 16, STATE - 4, STATE - 1, STATE + 1, STATE + 60, 1000][..]);
    let spare = select(&[-1, -131_072, 1, 1000, 131_072, isize::MIN / 2][..]);
    let state = prop_oneof![7 => Just(STATE), 1 => state];
    let spare = prop_oneof![7 => Just(0), 1 => spare];
    (
        image(style),
        style.reach.clone(),
        calls(style, most),
        state,
        spare,
        prop_oneof![3 => Just(Tallies::default()), 1 => tallies()],
        standing(alone),
        prop::bool::weighted(0.25),
        needed(RECORDS),
    )
        .prop_map(
            |(mut image, reach, calls, state, spare, tallies, standing, by_store, needed)| {
                keep(&mut image.slots, &needed);
                let (state, spare) = if reach == Reach::Free { (state, spare) } else { (STATE, 0) };
                Run { calls, image, reach, state, spare, tallies, standing, by_store }
            },
        )
}
