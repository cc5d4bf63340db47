//! What the active bank's records come to.

use crate::partition::narrow;

/// What the active bank's records come to. A record takes 37 bytes, and its key and its value.
/// Later versions may have more figures.
#[derive(Clone, Copy, Debug, Eq, PartialEq)]
#[non_exhaustive]
pub struct Figures {
    /// Bytes of the live system records, which a commit holds against the header's system limit.
    pub system: usize,
    /// Bytes of the live common records, which it holds against the common limit. A record under a
    /// GUID of neither type is not among them, though a lookup finds it as Common.
    pub common: usize,
    /// How many records there are, dead ones too.
    pub count: usize,
}

/// An answer that the library does not promise ends the program.
pub(crate) fn told(figures: [u64; 3]) -> Figures {
    let [system, common, count] = figures.map(narrow);
    Figures { system, common, count }
}
