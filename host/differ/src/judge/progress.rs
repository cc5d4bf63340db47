//! How far a long part is: a bar on a terminal, a line a minute elsewhere.

use std::cell::Cell;
use std::io::{stderr, stdout, IsTerminal};
use std::time::{Duration, Instant};

use indicatif::{ProgressBar, ProgressStyle};

use super::comparison::Mode;

const BAR: &str = "{msg} {wide_bar} {pos} of {len}, {eta} left";
const SPINNER: &str = "{msg} {pos}";
const EVERY: Duration = Duration::from_secs(60);

pub struct Progress {
    shown: Shown,
    place: String,
    done: Cell<u64>,
    last: Cell<Instant>,
    differs: Cell<bool>,
}

enum Shown {
    Bar(ProgressBar),
    Lines,
    Nothing,
}

impl Progress {
    /// Of a part of so many inputs, where that is known.
    pub fn new(mode: Mode, place: &str, count: Option<u32>) -> Self {
        let shown = match mode {
            Mode::Long if stdout().is_terminal() && stderr().is_terminal() => {
                Shown::Bar(bar(place, count))
            }
            Mode::Long => Shown::Lines,
            _ => Shown::Nothing,
        };
        Progress {
            shown,
            place: place.to_string(),
            done: Cell::new(0),
            last: Cell::new(Instant::now()),
            differs: Cell::new(false),
        }
    }

    /// Making an input smaller may take a while, so the first difference is told at once.
    pub fn difference(&self) {
        if !self.differs.replace(true) && !matches!(self.shown, Shown::Nothing) {
            println!("differ: {}: a difference, which is made smaller now", self.place);
        }
    }

    pub fn one_more(&self) {
        self.done.set(self.done.get() + 1);
        match &self.shown {
            Shown::Bar(bar) => bar.inc(1),
            Shown::Lines if self.last.get().elapsed() >= EVERY => {
                self.last.set(Instant::now());
                println!("differ: {}: {} so far", self.place, self.done.get());
            }
            _ => {}
        }
    }
}

fn bar(place: &str, count: Option<u32>) -> ProgressBar {
    let (bar, style) = match count {
        Some(count) => (ProgressBar::new(count.into()), BAR),
        None => (ProgressBar::new_spinner(), SPINNER),
    };
    let style = ProgressStyle::with_template(style).expect("a template");
    bar.with_style(style).with_message(place.to_string())
}

impl Drop for Progress {
    fn drop(&mut self) {
        if let Shown::Bar(bar) = &self.shown {
            bar.finish_and_clear();
        }
    }
}
