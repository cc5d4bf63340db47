//! Counts that are numbers with names.

use std::fmt::{self, Display, Formatter};
use std::ops::AddAssign;

use super::comparison::Counts;

/// The first is the number of inputs.
#[derive(Debug, Default, PartialEq)]
pub struct Numbers(Vec<(&'static str, u64)>);

impl Numbers {
    pub fn of(numbers: &[(&'static str, u64)]) -> Self {
        Numbers(numbers.to_vec())
    }

    pub fn get(&self, name: &str) -> u64 {
        let found = self.0.iter().find(|(of, _)| *of == name);
        found.map_or(0, |(_, number)| *number)
    }

    /// Each is so many at least.
    #[cfg(test)]
    pub fn are_met(&self, least: u64) {
        for (name, number) in &self.0 {
            assert!(*number >= least, "{name}: {self}");
        }
    }
}

impl AddAssign for Numbers {
    /// Both are to have the same names, unless there is nothing to add to.
    fn add_assign(&mut self, more: Numbers) {
        if self.0.is_empty() {
            *self = more;
            return;
        }
        assert_eq!(self.0.len(), more.0.len(), "other numbers");
        for ((name, number), (same, more)) in self.0.iter_mut().zip(more.0) {
            assert_eq!(*name, same);
            *number += more;
        }
    }
}

impl Display for Numbers {
    fn fmt(&self, f: &mut Formatter) -> fmt::Result {
        for (i, (name, number)) in self.0.iter().enumerate() {
            let comma = if i > 0 { ", " } else { "" };
            write!(f, "{comma}{number} {name}")?;
        }
        Ok(())
    }
}

impl Counts for Numbers {
    fn inputs(&self) -> u64 {
        self.0.first().map_or(0, |(_, number)| *number)
    }
}
