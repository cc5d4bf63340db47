//! The tallies by the words of N7 of the change requests (02): written from them and from neither
//! side's code.

use super::list::Book;
use crate::store::lent::call::{Answer, Call, Caller};
use crate::store::lent::state::{State, Tallies, EMPTY, INVALID, VALID};

/// Where each tally stops by itself, and the total.
pub const STOP: u32 = 4_294_967_295;

impl Tallies {
    /// An erase request in a commit of this caller.
    pub fn count(&mut self, caller: Caller) {
        let own = self.of(caller);
        if *own < STOP {
            *own += 1;
        }
    }

    /// Both, and the old total: the sum, stopped at the same number.
    pub fn told(self) -> [u64; 3] {
        let [clock, barrel] = [self.clock, self.barrel].map(u64::from);
        [clock, barrel, (clock + barrel).min(STOP.into())]
    }
}

impl Book {
    pub fn tally(&self) -> Answer {
        Answer::Tally(0, self.tallies.told())
    }
}

/// What is told of a state's bytes, sound or not: there are to be enough of them, and no kind but the
/// three.
pub fn of_state(bytes: &[u8]) -> Answer {
    let known = |kind| [EMPTY, INVALID, VALID].contains(&kind);
    let state = State::read(bytes).filter(|state| state.entries.iter().all(|e| known(e.kind)));
    match state {
        Some(state) => Answer::Tally(0, state.tallies.told()),
        None => Call::tally().refused(6),
    }
}

#[cfg(test)]
mod tests {
    use super::*;
    use crate::store::lent::state::{entry_at, ENTRIES, STATE};
    use image::put_number;

    #[test]
    fn each_tally_and_the_total_stop() {
        let mut tallies = Tallies { clock: STOP - 1, barrel: 0 };
        assert_eq!(tallies.told(), [4_294_967_294, 0, 4_294_967_294]);
        for (caller, told) in [
            (Caller::BARREL, [4_294_967_294, 1, 4_294_967_295]),
            (Caller(2), [4_294_967_294, 2, 4_294_967_295]),
            (Caller::CLOCK, [4_294_967_295, 2, 4_294_967_295]),
            (Caller::CLOCK, [4_294_967_295, 2, 4_294_967_295]),
            (Caller(u32::MAX), [4_294_967_295, 3, 4_294_967_295]),
        ] {
            tallies.count(caller);
            assert_eq!(tallies.told(), told);
        }
        let both = Tallies { clock: STOP, barrel: STOP };
        assert_eq!(both.told(), [4_294_967_295; 3]);
    }

    #[test]
    fn bytes_are_refused_that_hold_no_state() {
        let mut state = [0xFF; STATE];
        (0..ENTRIES).for_each(|i| put_number(&mut state, entry_at(i), VALID));
        assert_eq!(of_state(&state), Answer::Tally(0, [4_294_967_295; 3]));
        assert_eq!(of_state(&state[1..]), Answer::Tally(6, [0; 3]));
        for i in [0, ENTRIES - 1] {
            let mut other = state;
            put_number(&mut other, entry_at(i), VALID + 1);
            assert_eq!(of_state(&other), Answer::Tally(6, [0; 3]));
        }
    }
}
