//! A run's erase requests by caller, by N7 of the change requests (02): what the tallies are to be.

use super::counts::{Counts, BY_BOTH, BY_CALLER, PAST_STOP, PAST_TOTAL};
use crate::store::book::tally::STOP;
use crate::store::lent::call::{Answer, Call, Caller};
use crate::store::lent::state::Tallies;

/// Of the clock, and of the barrel.
#[derive(Clone, Copy, Debug, Default, PartialEq)]
pub struct Erases {
    /// What the tallies began with.
    began: [u64; 2],
    requests: [u64; 2],
}

impl Erases {
    pub fn new(tallies: Tallies) -> Self {
        let began = [tallies.clock, tallies.barrel].map(u64::from);
        Erases { began, requests: [0; 2] }
    }

    /// There was a request.
    pub fn any(&self) -> bool {
        self.requests != [0; 2]
    }

    /// Counts the request that a commit's answer makes.
    pub fn called(&mut self, call: &Call, answer: &Answer, counts: &mut Counts) {
        let Some(caller) = call.erases(answer) else {
            return;
        };
        let own = usize::from(caller != Caller::CLOCK);
        self.requests[own] += 1;
        let [clock, barrel] = self.all();
        counts.add(BY_CALLER[own], 1);
        counts.add(BY_BOTH, (self.requests[own] == 1 && self.requests[1 - own] > 0).into());
        counts.add(PAST_STOP, ([clock, barrel][own] > STOP.into()).into());
        counts.add(PAST_TOTAL, (clock + barrel > STOP.into()).into());
    }

    /// The clock's, the barrel's, and both: each up to the stop.
    pub fn told(&self) -> [u64; 3] {
        let [clock, barrel] = self.all();
        [clock, barrel, clock + barrel].map(|requests| requests.min(STOP.into()))
    }

    fn all(&self) -> [u64; 2] {
        [0, 1].map(|i| self.began[i] + self.requests[i])
    }
}

#[cfg(test)]
mod tests {
    use super::*;

    #[test]
    fn requests_are_counted_by_caller_and_past_the_stop() {
        let mut erases = Erases::new(Tallies { clock: STOP - 1, barrel: 0 });
        let mut counts = Counts::default();
        let asks = Answer::Commit(0, [1, 0, 0, 0], vec![]);
        let over = Answer::Commit(12, [1, 0, 0, 0], vec![]);
        let in_place = Answer::Commit(0, [0; 4], vec![]);
        let [clock, barrel] = [Caller::CLOCK, Caller::BARREL].map(|c| Call::commit(0).by(c));
        erases.called(&clock, &in_place, &mut counts);
        assert_eq!((erases.any(), erases.told()), (false, [4_294_967_294, 0, 4_294_967_294]));
        for (call, answer) in [(&clock, &asks), (&clock, &over), (&barrel, &asks), (&barrel, &over)]
        {
            erases.called(call, answer, &mut counts);
        }
        assert_eq!((erases.any(), erases.told()), (true, [4_294_967_295, 2, 4_294_967_295]));
        let of = |name| counts.others.of(name);
        assert_eq!((BY_CALLER.map(of), of(BY_BOTH)), ([2, 2], 1));
        assert_eq!((of(PAST_STOP), of(PAST_TOTAL)), (1, 3));
    }
}
