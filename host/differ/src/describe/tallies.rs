//! Tallies that a state may have.

use proptest::prelude::*;
use proptest::sample::select;

use crate::store::book::tally::STOP;
use crate::store::lent::state::Tallies;

/// Each at its ends or any, or both of a sum about its stop.
pub fn tallies() -> impl Strategy<Value = Tallies> {
    let one = || prop_oneof![3 => select(&[0, 1, STOP - 1, STOP][..]), 1 => any::<u32>()];
    let each = (one(), one()).prop_map(|(clock, barrel)| Tallies { clock, barrel });
    let about = (any::<u32>(), -2..=2i64).prop_map(|(clock, more)| {
        let barrel = i64::from(STOP - clock) + more;
        Tallies { clock, barrel: barrel.clamp(0, STOP.into()) as u32 }
    });
    prop_oneof![3 => each, 1 => about]
}
