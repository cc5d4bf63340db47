//! Lists that are made short. A description is made smaller in one pass over its parts, and what
//! was needed at first may not be when the rest is plain: so some is dropped in a second pass.

use proptest::collection::vec;
use proptest::prelude::*;

/// Up to so many of them.
pub fn list<S: Strategy>(element: S, most: usize) -> impl Strategy<Value = Vec<S::Value>> {
    (vec(element, 0..=most), needed(most)).prop_map(|(list, needed)| {
        let both = list.into_iter().zip(needed);
        both.filter_map(|(element, needed)| needed.then_some(element)).collect()
    })
}

/// Which of so many are needed: all of them, until it is made smaller.
pub fn needed(count: usize) -> impl Strategy<Value = Vec<bool>> {
    vec(prop::bool::weighted(1.0), count)
}
