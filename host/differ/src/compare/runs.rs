//! Runs of the store: the Rust, the port and 01's book, the flash and its wear, and the crate's
//! `Store`.

use crate::describe::{run, Run, Style};
use crate::judge::{self, Comparison, Mode, Part};
use crate::store::fixed::{self, edges, two_banks};
use crate::store::lent::Port;
use crate::store::run::counts::Counts;
use crate::store::run::{compare, wrapper};

const TWO_BANKS: &str = "the bench case of two banks";
const RANDOM: &str = "random";
const MOVING: &str = "banks that move";
const CAREFULLY: &str = "careful commits alone";

pub struct Runs {
    pub port: Port,
}

impl Comparison for Runs {
    type Input = Run;
    type Counts = Counts;
    const NAME: &'static str = "store";

    fn parts(&self, mode: Mode) -> Vec<Part<Run>> {
        let edges = edges::all().into_iter().map(|edge| Run::of(&edge.run()));
        let fixed = fixed::runs().into_iter().map(|run| Run::of(&run));
        let two_banks = Run { by_store: true, ..Run::of(&two_banks::run()) };
        let any = run(&Style::store(), 12, mode.alone());
        let moving = run(&Style::small(), 90, mode.alone());
        let careful = run(&Style::careful(), 90, mode.alone());
        vec![
            Part::each("at the lengths' edges", edges),
            Part::each("the fixed list", fixed),
            Part::each(TWO_BANKS, [two_banks].into_iter()),
            Part::drawn(RANDOM, mode.pick(600, 24_000, 20), any),
            Part::drawn(MOVING, mode.pick(120, 30_000, 20), moving),
            Part::drawn(CAREFULLY, mode.pick(120, 20_000, 20), careful),
        ]
    }

    fn compare(&self, input: &Run) -> Result<Counts, String> {
        let made = input.made();
        if input.by_store {
            wrapper::compare(&made)?;
        }
        compare(&made, self.port)
    }

    fn told(&self, input: &Run) -> String {
        input.to_string()
    }

    fn seen(&self, part: &str, counts: &Counts) -> Result<(), String> {
        if part == TWO_BANKS {
            println!("differ: store: {}", two_banks::measured(counts.fewest)?);
        }
        Ok(())
    }
}

impl judge::Counts for Counts {
    fn inputs(&self) -> u64 {
        self.runs()
    }
}

#[cfg(test)]
mod tests {
    use super::*;
    use crate::judge::Judge;
    use crate::store::lent::call::{BARREL, CAREFUL};
    use crate::store::run::counts::{
        By, ABOUT_512, ACCEPTED_PAIRS, AFTER_12, BY_BOTH, BY_CALLER, ERASES, FOUND, MOVES, PAIRS,
        PAST_STOP, PAST_TOTAL, RUST_REOPENED, WITHOUT_ROOM,
    };

    /// What is counted of these parts of the short mode.
    fn counted(names: &[&str]) -> Counts {
        let (runs, mut all) = (Runs { port: Port::default() }, Counts::default());
        for name in names {
            let part = runs.parts(Mode::Short).into_iter().find(|part| part.name == *name).unwrap();
            let place = format!("{}: {name}", Runs::NAME);
            all += Judge::new(Mode::Short, 1).part(&runs, &place, part.inputs).unwrap();
        }
        all
    }

    fn reached(counts: &By<u32>, numbers: &[u32]) -> bool {
        numbers.iter().all(|&number| counts.of(number) > 0)
    }

    /// By old commits and by careful ones.
    fn reached_by_both(all: &Counts, numbers: &[u32]) -> bool {
        ["commits", CAREFUL].iter().all(|kind| reached(&all.of_kind(kind), numbers))
    }

    #[test]
    fn runs_reach_every_refusal() {
        let all = counted(&[RANDOM, MOVING]);
        assert!(reached(&all.openings, &[0, 3, 4, 6]), "{all}");
        assert!(reached(&all.numbers, &[0, 5, 6, 7, 8, 9, 10, 12, 13]), "{all}");
        assert!(reached_by_both(&all, &[0, 5, 6, 7, 9, 10, 12]), "{all}");
        let calls = ["inserts", "removes", "lookups", "values", "figures", "whole images"];
        assert!(calls.iter().all(|call| all.others.of(call) > 0), "{all}");
        assert!(reached(&all.of_kind(BARREL), &[0, 6, 7, 15, 8]), "{all}");
        assert!(ABOUT_512.iter().all(|(_, about)| all.others.of(about) > 0), "{all}");
        assert!(all.others.of(WITHOUT_ROOM) > 0, "{all}");
    }

    #[test]
    fn banks_move_and_every_refusal_of_a_commit_is_reached() {
        let all = counted(&[MOVING]);
        assert!(reached(&all.numbers, &[0, 5, 13]), "{all}");
        assert!(reached_by_both(&all, &[9, 10, 11, 12]), "{all}");
        let of = |name| all.others.of(name);
        assert!(of(MOVES) > 120 && of(ERASES) < of(MOVES) && of(PAIRS) > 30, "{all}");
        assert!(of(FOUND) > 100 && of(RUST_REOPENED) > 100, "{all}");
        assert!(of(AFTER_12) > 5 && of(ACCEPTED_PAIRS) > of(PAIRS), "{all}");
        assert!(BY_CALLER.iter().all(|caller| of(caller) > 50) && of(BY_BOTH) > 10, "{all}");
        assert_eq!(BY_CALLER.map(of).iter().sum::<u64>(), of(ERASES), "{all}");
        assert!(of(PAST_STOP) > 5 && of(PAST_TOTAL) > of(PAST_STOP), "{all}");
    }

    #[test]
    fn careful_runs_go_on_after_12() {
        let all = counted(&[CAREFULLY]);
        assert!(reached(&all.of_kind(CAREFUL), &[0, 5, 9, 10, 11, 12]), "{all}");
        let of = |name| all.others.of(name);
        assert!(of(CAREFUL) > 1_000 && of("commits") == 0, "{all}");
        assert!(of(AFTER_12) > 50 && of(RUST_REOPENED) > 100, "{all}");
        // Pairs with a commit between them that was refused over the size: N4 alone bounds them.
        assert!(of(PAIRS) > 30 && of(ACCEPTED_PAIRS) > of(PAIRS) + 20, "{all}");
    }
}
