//! The port's calls on any state and any work area: refusal 6, or the answer of the book that they
//! are; their tallies; and the causes of the banks that they were made of.

use crate::describe::{case, moving_case, Case};
use crate::judge::{Comparison, Mode, Numbers, Part};
use crate::partition::cause::compare_all;
use crate::store::book::tally::STOP;
use crate::store::fuzz::{self, Seen};
use crate::store::lent::Port;

const SOUND: &str = "on sound ones";
/// States that are not sound, and have tallies nevertheless.
const TALLIED: &str = "of them with tallies";
const ERASES: &str = "erase requests";
/// A tally counts up to its stop, or no more; and the total no more.
const AT_STOP: &str = "of them the last that a tally counts";
const PAST_STOP: &str = "past a tally's stop";
const PAST_TOTAL: &str = "past the total's stop";

pub struct AnyState {
    pub port: Port,
}

impl Comparison for AnyState {
    type Input = Case;
    type Counts = Numbers;
    const NAME: &'static str = "any state";

    fn parts(&self, mode: Mode) -> Vec<Part<Case>> {
        let alone = mode.alone();
        vec![
            Part::drawn("random", mode.pick(4_000, 200_000, 400), case(alone)),
            Part::drawn("commits that move", mode.pick(400, 20_000, 40), moving_case(alone)),
        ]
    }

    fn compare(&self, input: &Case) -> Result<Numbers, String> {
        let seen = fuzz::compare(&input.made(), self.port, input.standing)?;
        let causes = compare_all(self.port.cause, &input.image.made())?;
        Ok(Numbers::of(&[&numbers(seen)[..], &causes.numbers()].concat()))
    }

    fn told(&self, input: &Case) -> String {
        input.to_string()
    }
}

fn numbers(Seen { sound, tallied, erase }: Seen) -> [(&'static str, u64); 8] {
    let (own, total) = erase.unzip();
    [
        ("calls, all as 01 says", true),
        (SOUND, sound),
        ("refused with 6", !sound),
        (TALLIED, tallied && !sound),
        (ERASES, erase.is_some()),
        (AT_STOP, own == Some(STOP - 1)),
        (PAST_STOP, own == Some(STOP)),
        (PAST_TOTAL, total == Some(STOP.into())),
    ]
    .map(|(name, is)| (name, u64::from(is)))
}

#[cfg(test)]
mod tests {
    use super::*;
    use crate::judge::{Counts, Judge};
    use proptest::strategy::Strategy;

    fn counted(cases: impl Strategy<Value = Case> + 'static) -> Numbers {
        let inputs = Part::drawn("", 400, cases).inputs;
        let any = AnyState { port: Port::default() };
        Judge::new(Mode::Short, 2).part(&any, "", inputs).unwrap()
    }

    #[test]
    fn some_cases_are_sound_and_most_are_not() {
        let counts = counted(case(false));
        let sound = counts.get(SOUND);
        assert!(100 < sound && 2 * sound < counts.inputs(), "{counts}");
        assert!(counts.get(TALLIED) > 100, "{counts}");
    }

    #[test]
    fn commits_count_up_to_every_stop_and_past_it() {
        let counts = counted(moving_case(false));
        assert!(2 * counts.get(ERASES) > counts.inputs(), "{counts}");
        assert!(
            [AT_STOP, PAST_STOP, PAST_TOTAL].iter().all(|stop| counts.get(stop) > 20),
            "{counts}"
        );
    }
}
