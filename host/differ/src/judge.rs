//! Goes through comparisons, and tells the smallest input found on which their sides differ.

mod comparison;
mod numbers;
mod progress;

use std::cell::RefCell;

use proptest::test_runner::{
    Config, FileFailurePersistence, RngAlgorithm, TestCaseError, TestError, TestRng, TestRunner,
};

pub use comparison::{Comparison, Counts, Difference, Inputs, Mode, Part};
pub use numbers::Numbers;
use progress::Progress;

/// Tries and milliseconds allowed for making one input smaller.
const SHRINK_TRIES: u32 = 20_000;
const SHRINK_TIME: u32 = 120_000;

/// Goes through comparisons.
pub struct Judge {
    pub mode: Mode,
    pub seed: u64,
    /// The folder of the failures that were found; without one none is kept.
    pub kept: Option<String>,
    /// Tries these alone.
    pub only_kept: bool,
    /// Compares nothing of another name.
    pub only: Option<String>,
    /// How many inputs there were so far.
    pub inputs: u64,
}

impl Judge {
    pub fn new(mode: Mode, seed: u64) -> Self {
        Judge { mode, seed, kept: None, only_kept: false, only: None, inputs: 0 }
    }

    /// Every part of a comparison; the error tells the first difference.
    pub fn hold<C: Comparison>(&mut self, comparison: &C) -> Result<(), String> {
        if self.only.as_ref().is_some_and(|only| only != C::NAME) {
            return Ok(());
        }
        for Part { name, inputs } in comparison.parts(self.mode) {
            let Some(inputs) = inputs.gone_through(self.mode, self.only_kept) else {
                continue;
            };
            let place = format!("{}: {name}", C::NAME);
            let counts = self.part(comparison, &place, inputs).map_err(|found| {
                let told = comparison.told(&found.input);
                format!("DIFFERENCE in {place}\n{told}\n{}", found.why)
            })?;
            if !self.only_kept {
                comparison.seen(&name, &counts)?;
                println!("differ: {place}: {counts}");
                self.inputs += counts.inputs();
            }
        }
        Ok(())
    }

    pub fn part<C: Comparison>(
        &self,
        comparison: &C,
        place: &str,
        inputs: Inputs<C::Input>,
    ) -> Result<C::Counts, Difference<C::Input>> {
        let (count, strategy) = match inputs {
            Inputs::Each(all) => {
                let bar = Progress::new(self.mode, place, None);
                return each(comparison, all.inspect(|_| bar.one_more()));
            }
            Inputs::Drawn(count, strategy) => (count, strategy),
        };
        let bar = Progress::new(self.mode, place, Some(count));
        let counts = RefCell::new(C::Counts::default());
        let outcome = self.runner(place, count).run(&strategy, |input| {
            let more = comparison.compare(&input).map_err(|why| {
                bar.difference();
                TestCaseError::fail(why)
            })?;
            *counts.borrow_mut() += more;
            bar.one_more();
            Ok(())
        });
        match outcome {
            Ok(()) => Ok(counts.into_inner()),
            Err(TestError::Fail(why, input)) => {
                Err(Difference { input, why: why.message().to_string() })
            }
            Err(TestError::Abort(why)) => unreachable!("no input is turned down: {why}"),
        }
    }

    /// Of a part's own random numbers, so that it draws the same whatever else is compared.
    fn runner(&self, place: &str, cases: u32) -> TestRunner {
        let mut seed = [0; 32];
        seed[..8].copy_from_slice(&self.seed.to_le_bytes());
        seed[8..12].copy_from_slice(&crc32fast::hash(place.as_bytes()).to_le_bytes());
        let kept = self.kept.as_ref().map(|folder| {
            let name = place.replace(|c: char| !c.is_ascii_alphanumeric(), "-");
            // What is drawn on buffers that stand alone is not what is drawn elsewhere.
            let alone = if self.mode.alone() { "-alone" } else { "" };
            let path = format!("{folder}/{name}{alone}.txt");
            let path: &'static str = Box::leak(path.into_boxed_str());
            Box::new(FileFailurePersistence::Direct(path)) as _
        });
        let config = Config {
            cases,
            failure_persistence: kept,
            max_shrink_iters: SHRINK_TRIES,
            max_shrink_time: SHRINK_TIME,
            ..Config::default()
        };
        TestRunner::new_with_rng(config, TestRng::from_seed(RngAlgorithm::ChaCha, &seed))
    }
}

/// These are as small as they were made.
fn each<C: Comparison>(
    comparison: &C,
    inputs: impl Iterator<Item = C::Input>,
) -> Result<C::Counts, Difference<C::Input>> {
    let mut counts = C::Counts::default();
    for input in inputs {
        match comparison.compare(&input) {
            Ok(more) => counts += more,
            Err(why) => return Err(Difference { input, why }),
        }
    }
    Ok(counts)
}

#[cfg(test)]
mod tests;
