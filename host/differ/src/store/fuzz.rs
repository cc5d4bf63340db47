//! The port's calls on any state and any work area: refusal 6, or the answer of the book
//! that they are. Nothing else changes, and nothing beside the buffers. Before each call and after
//! it the tallies are told, of states that are not sound too.

use super::book::{sound, tally, PART};
use super::lent::call::{parting, Answer, Call};
use super::lent::same::{same_state, same_tally, same_work};
use super::lent::state::STATE;
use super::lent::{Lent, Port, Standing};

/// A state, a work area and a call, each of which may be anything.
#[derive(Clone, Debug, PartialEq)]
pub struct Case {
    pub state: Vec<u8>,
    pub work: Vec<u8>,
    pub call: Call,
}

/// What a case was.
#[derive(Clone, Copy, Debug, PartialEq)]
pub struct Seen {
    pub sound: bool,
    /// It has tallies, which a state may have that is not sound.
    pub tallied: bool,
    /// Of a commit that asks for an erase: its caller's tally before it, and the total.
    pub erase: Option<(u32, u64)>,
}

/// One call, and the tallies before it and after it; the error is what differs.
pub fn compare(case: &Case, port: Port, standing: Standing) -> Result<Seen, String> {
    let (mut state, mut work) = (case.state.clone(), case.work.clone());
    let (said, seen) = said(&case.call, &mut state, &mut work);
    let mut lent = Lent::new(port, standing, &case.state, &case.work);
    same_tally(&tally::of_state(&case.state), &mut lent)?;
    let has = lent.ask(&case.call)?;
    if has != said {
        let parting = parting(&said, &has);
        return Err(format!("\n  01:   {said}\n  port: {has}{parting}"));
    }
    same_state(&state, lent.state.slice(), "port")?;
    same_work(&work, lent.work.slice(), "port")?;
    same_tally(&tally::of_state(&state), &mut lent)?;
    Ok(seen)
}

/// What a call answers, and leaves of state and work area.
fn said(call: &Call, state: &mut [u8], work: &mut [u8]) -> (Answer, Seen) {
    let tallied = tally::of_state(state) != Call::tally().refused(6);
    let Some(mut book) = sound::book(state, work) else {
        return (call.refused(6), Seen { sound: false, tallied, erase: None });
    };
    let mut before = book.tallies;
    let said = book.answer(call);
    if call.changes(&said) {
        state[..STATE].copy_from_slice(&book.state().bytes());
        let at = book.active * PART;
        work[at..at + PART].copy_from_slice(&book.slots[book.active].part());
    }
    let [_, _, total] = before.told();
    let erase = call.erases(&said).map(|caller| (*before.of(caller), total));
    (said, Seen { sound: true, tallied, erase })
}
