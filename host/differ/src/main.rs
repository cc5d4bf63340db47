//! The differential runner: the Rust and the port on the same inputs.

mod compare;
mod describe;
mod judge;
mod partition;
mod store;

use std::fs;
use std::path::PathBuf;
use std::process::ExitCode;
use std::time::{Instant, SystemTime, UNIX_EPOCH};

use clap::Parser;

use judge::{Judge, Mode};

/// Where failures that were found are kept, to be tried first.
const KEPT: &str = concat!(env!("CARGO_MANIFEST_DIR"), "/regressions");

/// Compares the port with the Rust and with the scope paper's words on the same inputs.
#[derive(Debug, Parser)]
struct Arguments {
    /// Many more inputs
    #[arg(long, conflicts_with = "memcheck")]
    long: bool,
    /// Few inputs, with buffers that a memory checker can watch
    #[arg(long)]
    memcheck: bool,
    /// The seed of the random inputs [default: 1, and with --long one from the clock]
    #[arg(long, value_name = "N")]
    seed: Option<u64>,
    /// Only what is compared under this name, the first word or words of a line that is printed
    #[arg(long, value_name = "NAME")]
    only: Option<String>,
    /// Writes the fixed list of the oracle's answers, and compares nothing
    #[arg(long, value_name = "FILE", exclusive = true)]
    write_replay: Option<PathBuf>,
}

impl Arguments {
    fn mode(&self) -> Mode {
        match (self.long, self.memcheck) {
            (true, _) => Mode::Long,
            (_, true) => Mode::Memcheck,
            _ => Mode::Short,
        }
    }

    /// The short mode is part of the tests and repeats; the long one looks somewhere new.
    fn seed(&self) -> u64 {
        let clock = || SystemTime::now().duration_since(UNIX_EPOCH);
        let nanos = || clock().map_or(1, |since| since.as_nanos() as u64);
        self.seed.unwrap_or_else(|| if self.long { nanos() } else { 1 })
    }
}

fn main() -> ExitCode {
    let arguments = Arguments::parse();
    let done = match &arguments.write_replay {
        Some(file) => write_replay(file),
        None => compare_all(&arguments),
    };
    let (message, code) = match done {
        Ok(message) => (message, ExitCode::SUCCESS),
        Err(message) => (message, ExitCode::FAILURE),
    };
    println!("differ: {message}");
    code
}

fn compare_all(arguments: &Arguments) -> Result<String, String> {
    let (mode, seed) = (arguments.mode(), arguments.seed());
    println!("differ: {mode:?} mode, seed {seed}");
    let start = Instant::now();
    let mut judge = Judge::new(mode, seed);
    judge.kept = Some(KEPT.to_string());
    judge.only = arguments.only.clone();
    // What failed before is tried before all else.
    for only_kept in [true, false] {
        judge.only_kept = only_kept;
        compare::all(&mut judge).map_err(|why| format!("{why}\ndiffer: FAILED (seed {seed})"))?;
    }
    let (inputs, seconds) = (judge.inputs, start.elapsed().as_secs_f64());
    if inputs == 0 {
        return Err("nothing is compared under this name".to_string());
    }
    Ok(format!("{inputs} inputs in {seconds:.1} s, no difference"))
}

fn write_replay(file: &PathBuf) -> Result<String, String> {
    let text = store::fixed::text()?;
    let name = file.display();
    fs::write(file, &text).map_err(|e| format!("{name}: {e}"))?;
    Ok(format!("{} lines written to {name}", text.lines().count()))
}

#[cfg(test)]
mod tests {
    use super::*;

    fn parsed(words: &str) -> Option<(Mode, u64)> {
        let words = ["differ"].into_iter().chain(words.split_whitespace());
        let arguments = Arguments::try_parse_from(words).ok()?;
        Some((arguments.mode(), arguments.seed()))
    }

    #[test]
    fn arguments_are_read() {
        assert_eq!(parsed(""), Some((Mode::Short, 1)));
        assert_eq!(parsed("--seed 9 --long"), Some((Mode::Long, 9)));
        assert_eq!(parsed("--memcheck --only store"), Some((Mode::Memcheck, 1)));
        for wrong in ["--seed", "--seed x", "--wide", "--write-replay f --long"] {
            assert_eq!(parsed(wrong), None, "{wrong}");
        }
        assert_ne!(parsed("--long"), Some((Mode::Long, 1)));
    }
}
