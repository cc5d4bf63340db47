//! The state's bytes: n, active, the clock's and the barrel's tally, then kind, total and usable of
//! 16 banks, each a little-endian number of four bytes.

use std::fmt::{self, Display, Formatter};

use image::{number, put_number};

use super::call::Caller;

/// Bytes of a state.
pub const STATE: usize = entry_at(ENTRIES);
/// Entries of its table.
pub const ENTRIES: usize = 16;
/// Bytes in front of the table, and of an entry.
const HEAD: usize = 16;
const ENTRY: usize = 12;

pub const EMPTY: u32 = 0;
pub const INVALID: u32 = 1;
pub const VALID: u32 = 2;

/// A state's numbers, whatever they are.
#[derive(Clone, Copy, Debug, Default, PartialEq)]
pub struct State {
    pub n: u32,
    pub active: u32,
    pub tallies: Tallies,
    pub entries: [Entry; ENTRIES],
}

/// Of the erase requests in each caller's commits.
#[derive(Clone, Copy, Debug, Default, PartialEq)]
pub struct Tallies {
    pub clock: u32,
    pub barrel: u32,
}

impl Tallies {
    pub fn of(&mut self, caller: Caller) -> &mut u32 {
        match caller {
            Caller::CLOCK => &mut self.clock,
            _ => &mut self.barrel,
        }
    }
}

#[derive(Clone, Copy, Debug, Default, PartialEq)]
pub struct Entry {
    pub kind: u32,
    pub total: u32,
    pub usable: u32,
}

/// Where bank i's entry begins: kind, then total, then usable.
pub const fn entry_at(i: usize) -> usize {
    HEAD + ENTRY * i
}

pub const fn total_at(i: usize) -> usize {
    entry_at(i) + 4
}

pub const fn usable_at(i: usize) -> usize {
    entry_at(i) + 8
}

impl State {
    /// The numbers in a state's bytes, if there are as many.
    pub fn read(bytes: &[u8]) -> Option<State> {
        let bytes = bytes.get(..STATE)?;
        let entry = |i: usize| Entry {
            kind: number(bytes, entry_at(i)),
            total: number(bytes, total_at(i)),
            usable: number(bytes, usable_at(i)),
        };
        let mut entries = [Entry::default(); ENTRIES];
        entries.iter_mut().enumerate().for_each(|(i, e)| *e = entry(i));
        Some(State {
            n: number(bytes, 0),
            active: number(bytes, 4),
            tallies: Tallies { clock: number(bytes, 8), barrel: number(bytes, 12) },
            entries,
        })
    }

    pub fn bytes(&self) -> [u8; STATE] {
        let mut out = [0; STATE];
        let entries = self.entries.iter().flat_map(|e| [e.kind, e.total, e.usable]);
        let Tallies { clock, barrel } = self.tallies;
        let numbers = [self.n, self.active, clock, barrel].into_iter().chain(entries);
        for (i, number) in numbers.enumerate() {
            put_number(&mut out, 4 * i, number);
        }
        out
    }
}

impl Display for State {
    fn fmt(&self, f: &mut Formatter) -> fmt::Result {
        let Tallies { clock, barrel } = self.tallies;
        write!(f, "n {}, active {}, ", self.n, self.active)?;
        write!(f, "tallies: clock {clock}, barrel {barrel}")?;
        let entries = self.entries.iter().enumerate();
        for (i, e) in entries.filter(|(_, e)| **e != Entry::default()) {
            write!(f, "; {i}: kind {}, ", e.kind)?;
            write!(f, "total {}, usable {}", e.total, e.usable)?;
        }
        Ok(())
    }
}

#[cfg(test)]
mod tests {
    use super::*;

    #[test]
    fn numbers_have_their_places() {
        let mut state = State::default();
        (state.n, state.active) = (2, 1);
        (*state.tallies.of(Caller::CLOCK), *state.tallies.of(Caller::BARREL)) = (9, 7);
        state.entries[15].usable = 0x0102_0304;
        let bytes = state.bytes();
        assert_eq!(bytes[..16], [2, 0, 0, 0, 1, 0, 0, 0, 9, 0, 0, 0, 7, 0, 0, 0]);
        assert_eq!((bytes.len(), &bytes[204..]), (208, &[4, 3, 2, 1][..]));
        assert_eq!(State::read(&bytes), Some(state));
        assert_eq!(State::read(&bytes[1..]), None);
    }
}
