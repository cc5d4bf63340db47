//! A comparison: what it is tried on, what its sides answer, what is counted, and what is told.

use std::fmt::{Debug, Display};
use std::ops::AddAssign;

use proptest::strategy::{BoxedStrategy, Strategy};

/// Something that the port and others answer. A request adds a file with one of these to `compare`,
/// and a line to `compare.rs`.
pub trait Comparison {
    /// An input's description, small enough to be read.
    type Input: Debug + 'static;
    type Counts: Counts;
    const NAME: &'static str;

    /// What it is tried on.
    fn parts(&self, mode: Mode) -> Vec<Part<Self::Input>>;

    /// All sides on one input: what is to be counted, or what each of them says.
    fn compare(&self, input: &Self::Input) -> Result<Self::Counts, String>;

    /// The input in words.
    fn told(&self, input: &Self::Input) -> String {
        format!("{input:#?}")
    }

    /// After a part: whether what was counted is what was to be seen.
    fn seen(&self, _part: &str, _counts: &Self::Counts) -> Result<(), String> {
        Ok(())
    }
}

/// What a part comes to, in words by `Display`.
pub trait Counts: Debug + Default + AddAssign + Display {
    /// How many inputs it was.
    fn inputs(&self) -> u64;
}

/// How much is compared.
#[derive(Clone, Copy, Debug, PartialEq)]
pub enum Mode {
    Short,
    Long,
    /// Few inputs, on buffers that stand alone, for a memory checker.
    Memcheck,
}

impl Mode {
    pub fn pick<T>(self, short: T, long: T, memcheck: T) -> T {
        match self {
            Mode::Short => short,
            Mode::Long => long,
            Mode::Memcheck => memcheck,
        }
    }

    /// Whether buffers stand alone.
    pub fn alone(self) -> bool {
        self == Mode::Memcheck
    }
}

/// Inputs of one kind.
pub struct Part<I> {
    pub name: String,
    pub inputs: Inputs<I>,
}

pub enum Inputs<I> {
    Each(Box<dyn Iterator<Item = I>>),
    Drawn(u32, BoxedStrategy<I>),
}

impl<I: Debug + 'static> Part<I> {
    /// Every one of these.
    pub fn each(name: impl Into<String>, inputs: impl Iterator<Item = I> + 'static) -> Self {
        Part { name: name.into(), inputs: Inputs::Each(Box::new(inputs)) }
    }

    /// So many that a strategy draws.
    pub fn drawn(
        name: impl Into<String>,
        count: u32,
        strategy: impl Strategy<Value = I> + 'static,
    ) -> Self {
        Part { name: name.into(), inputs: Inputs::Drawn(count, strategy.boxed()) }
    }
}

impl<I> Inputs<I> {
    /// Those that are gone through: none of each for a memory checker; where only kept failures are
    /// tried, none but these.
    pub fn gone_through(self, mode: Mode, only_kept: bool) -> Option<Self> {
        match self {
            Inputs::Each(_) if mode.alone() || only_kept => None,
            Inputs::Drawn(0, _) => None,
            Inputs::Drawn(_, strategy) if only_kept => Some(Inputs::Drawn(0, strategy)),
            inputs => Some(inputs),
        }
    }
}

/// The smallest input found on which the sides differ, and what they say.
#[derive(Debug)]
pub struct Difference<I> {
    pub input: I,
    pub why: String,
}
