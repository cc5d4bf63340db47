//! Whether two banks hold the same settings: the port against the words of N1 everywhere, and
//! against the Rust where both banks are on the domain on which it reads as the port does. Why the
//! reading of either stopped is asked too.

mod fixed;
mod kinds;

use crate::describe::{pair, Pair};
use crate::judge::{Comparison, Mode, Numbers, Part};
use crate::partition::cause::{self, Causes, PortCause};
use crate::partition::model::Reading;
use crate::partition::rust;
use crate::partition::settings::{read, said, Answer};
use crate::store::lent::port::Buffer;
use crate::store::lent::Standing;

/// How the port answers; the tests plant faults here.
pub type PortAnswer = fn(&[u8], &[u8]) -> Answer;

pub struct Settings {
    pub port: PortAnswer,
    pub cause: PortCause,
}

pub fn port(one: &[u8], other: &[u8]) -> Answer {
    feqyondil::same_settings(one, other).map_err(feqyondil::Refusal::number)
}

impl Comparison for Settings {
    type Input = Pair;
    type Counts = Numbers;
    const NAME: &'static str = "settings";

    fn parts(&self, mode: Mode) -> Vec<Part<Pair>> {
        let fixed = fixed::pairs().into_iter().map(|(_, _, pair)| pair);
        let count = mode.pick(2_500, 120_000, 200);
        vec![Part::each("of each kind", fixed), Part::drawn("random", count, pair(mode.alone()))]
    }

    fn compare(&self, input: &Pair) -> Result<Numbers, String> {
        let [one, other] = &input.made();
        let read = read([one, other]);
        let said = said(read.as_ref());
        let (port, causes) = self.lent(input, one, other)?;
        let asked = comparable(input, read.as_ref());
        let rust = asked.then(|| rust::same_settings(&[&one[..], other].concat()));
        let equal = |rust: &Result<bool, String>| rust.as_ref().ok() == said.as_ref().ok();
        if port == said && rust.as_ref().map_or(true, equal) {
            return Ok(kinds::counted([one, other], read.as_ref(), asked, causes));
        }
        let rust = rust.map_or("not asked".to_string(), text);
        Err(format!("  Rust: {rust}\n  N1:   {}\n  port: {}", text(said), text(port)))
    }
}

/// The Rust may be asked: neither bank is outside the domain. A memory checker is to watch the
/// port alone, as in runs.
fn comparable(input: &Pair, read: Option<&[Reading; 2]>) -> bool {
    let inside = read.is_some_and(|both| both.iter().all(|bank| bank.outside.is_none()));
    inside && !input.standing.contains(&Standing::Alone)
}

impl Settings {
    /// The port's answer on lent banks, which it is to leave as they are.
    fn lent(&self, input: &Pair, one: &[u8], other: &[u8]) -> Result<(Answer, Causes), String> {
        let [first, second] = input.standing;
        let lent = [Buffer::new(one, first), Buffer::new(other, second)];
        let answer = (self.port)(lent[0].slice(), lent[1].slice());
        let mut causes = Causes::default();
        for buffer in &lent {
            causes += cause::compare_all(self.cause, buffer.slice())?;
        }
        match lent[0].still_holds(one) && lent[1].still_holds(other) {
            true => Ok((answer, causes)),
            false => Err("  port: it wrote where it was not to".to_string()),
        }
    }
}

fn text<E: ToString>(answer: Result<bool, E>) -> String {
    match answer {
        Ok(true) => "yes".to_string(),
        Ok(false) => "no".to_string(),
        Err(why) => why.to_string(),
    }
}

#[cfg(test)]
mod tests {
    use super::kinds::NAMES;
    use super::*;
    use crate::judge::{Counts, Judge};

    #[test]
    fn each_kind_has_its_answer() {
        let mut kinds = Vec::new();
        for (kind, answer, pair) in fixed::pairs() {
            let [one, other] = &pair.made();
            let read = read([one, other]);
            let found = kinds::of([one, other], read.as_ref());
            assert_eq!(said(read.as_ref()), answer, "{kind:?}: {pair:?}");
            assert!(found.contains(&kind), "{kind:?}: {found:?}: {pair:?}");
            kinds.push(kind);
        }
        let lacks = NAMES.iter().find(|(kind, _)| !kinds.contains(kind));
        assert_eq!(lacks, None);
    }

    #[test]
    fn random_pairs_are_of_every_kind() {
        let inputs = Part::drawn("", 4_000, pair(false)).inputs;
        let settings = Settings { port, cause: feqyondil::bank_cause };
        let counts = Judge::new(Mode::Short, 3).part(&settings, "", inputs).unwrap();
        for (kind, name) in NAMES {
            assert!(counts.get(name) >= 20, "{kind:?}: {counts}");
        }
        let (same, all) = (counts.get("the same"), counts.inputs());
        assert!(10 * same > 3 * all && 10 * same < 6 * all, "{counts}");
    }
}
