//! What a bank of the book and its slot come to in state and work area.

use crate::store::lent::state::{Entry, EMPTY, INVALID, VALID};

pub use crate::partition::slot::{size, Bank, Slot};

/// Bytes of work area for each bank.
pub const PART: usize = 131_072;

pub const LIVE: u8 = 0x7F;

impl Slot {
    pub fn entry(&self) -> Entry {
        let (kind, total, usable) = match self {
            Slot::Empty => (EMPTY, 0, 0),
            Slot::Invalid => (INVALID, 0, 0),
            Slot::Valid(bank) => (VALID, bank.total(), bank.usable),
        };
        Entry { kind, total: total as u32, usable: usable as u32 }
    }

    /// Its part of the work area.
    pub fn part(&self) -> Vec<u8> {
        let mut out = match self {
            Slot::Valid(bank) => bank.bytes(),
            _ => Vec::new(),
        };
        out.resize(PART, 0xFF);
        out
    }
}

impl Bank {
    /// Header and records as they would be written.
    pub fn bytes(&self) -> Vec<u8> {
        let mut out = Vec::with_capacity(PART);
        out.extend(self.header.bytes());
        self.records.iter().for_each(|r| out.extend(r.bytes()));
        out
    }
}
