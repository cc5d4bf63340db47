//! Whose commits wear the flash.

/// Who commits. An erase request counts in its own tally.
#[derive(Clone, Copy, Debug, Eq, PartialEq)]
pub enum Caller {
    /// The clock.
    Clock,
    /// The chime barrel.
    Barrel,
}

impl Caller {
    /// As the calls of [`lent`](crate::lent) take it.
    pub fn number(self) -> u32 {
        match self {
            Caller::Clock => 0,
            Caller::Barrel => 1,
        }
    }
}

/// Erase requests since the opening. Each number stops at 4,294,967,295 by itself.
#[derive(Clone, Copy, Debug, Eq, PartialEq)]
pub struct Tally {
    /// Those in the clock's commits.
    pub clock: u32,
    /// Those in the barrel's.
    pub barrel: u32,
    /// The sum of the two.
    pub total: u32,
}

/// What the answer of a [`Store`](crate::Store)'s own state means. One that the library does not
/// promise, a refusal too, ends the program.
pub(crate) fn told(number: u32, tally: [u64; 3]) -> Tally {
    match (number, tally.map(u32::try_from)) {
        (0, [Ok(clock), Ok(barrel), Ok(total)]) if total == clock.saturating_add(barrel) => {
            Tally { clock, barrel, total }
        }
        _ => panic!("the library answered {number} with {tally:?}"),
    }
}

#[cfg(test)]
mod tests {
    use super::*;

    const STOP: u64 = 4_294_967_295;

    #[test]
    fn the_total_is_the_stopped_sum() {
        assert_eq!(told(0, [2, 3, 5]), Tally { clock: 2, barrel: 3, total: 5 });
        let stopped = Tally { clock: u32::MAX, barrel: 1, total: u32::MAX };
        assert_eq!(told(0, [STOP, 1, STOP]), stopped);
    }

    #[test]
    #[should_panic(expected = "the library answered 0 with [2, 3, 6]")]
    fn another_total_is_a_fault() {
        told(0, [2, 3, 6]);
    }

    #[test]
    #[should_panic(expected = "the library answered 0 with [4294967295, 1, 4294967296]")]
    fn a_total_past_the_stop_is_a_fault() {
        told(0, [STOP, 1, STOP + 1]);
    }

    #[test]
    #[should_panic(expected = "the library answered 6 with [0, 0, 0]")]
    fn a_refusal_is_a_fault() {
        told(6, [0; 3]);
    }
}
