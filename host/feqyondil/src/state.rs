//! The numbers of a state: offsets, named as in include/feqyondil.h, for those who lend its bytes
//! themselves. [`Store`](crate::Store) reads them for all others.

/// The number of banks, n.
pub const STATE_BANKS: usize = 0;
/// The active one, counted from 0.
pub const STATE_ACTIVE: usize = 4;
/// Erase requests in the clock's commits, up to 4,294,967,295.
pub const STATE_CLOCK_TALLY: usize = 8;
/// Those in the barrel's.
pub const STATE_BARREL_TALLY: usize = 12;
/// Bank i's entry is `ENTRY_SIZE * i` bytes behind.
pub const STATE_ENTRIES: usize = 16;
/// Bytes of an entry.
pub const ENTRY_SIZE: usize = 12;
/// In an entry, its kind.
pub const ENTRY_KIND: usize = 0;
/// In an entry, its total.
pub const ENTRY_TOTAL: usize = 4;
/// In an entry, its usable bytes.
pub const ENTRY_USABLE: usize = 8;

/// What a bank is.
#[derive(Clone, Copy, Debug, Eq, PartialEq)]
#[repr(u32)]
pub enum Kind {
    /// All of it is 0xFF.
    Empty = 0,
    /// Neither of the others.
    Invalid = 1,
    /// It has a good header and good records.
    Valid = 2,
}

/// What a state has of a bank; both lengths are 0 unless it is Valid.
#[derive(Clone, Copy, Debug, Eq, PartialEq)]
pub struct Entry {
    /// What the bank is.
    pub kind: Kind,
    /// Bytes of its header and of all its records, dead ones too.
    pub total: usize,
    /// A commit moves the bank where its total is over this.
    pub usable: usize,
}

/// The number of a state at one of these offsets, as in `number(state, STATE_ACTIVE)`. Panics where
/// the state ends before it.
pub fn number(state: &[u8], offset: usize) -> u32 {
    let four = state[offset..offset + 4].try_into().expect("four bytes");
    u32::from_le_bytes(four)
}

/// The entry of bank `i`. A kind that the library does not promise ends the program.
pub(crate) fn entry(state: &[u8], i: usize) -> Entry {
    let at = STATE_ENTRIES + ENTRY_SIZE * i;
    let kind = match number(state, at + ENTRY_KIND) {
        0 => Kind::Empty,
        1 => Kind::Invalid,
        2 => Kind::Valid,
        other => panic!("the library answered a bank of kind {other}"),
    };
    Entry {
        kind,
        total: number(state, at + ENTRY_TOTAL) as usize,
        usable: number(state, at + ENTRY_USABLE) as usize,
    }
}

#[cfg(test)]
mod tests {
    use super::*;
    use crate::{BANKS_MAX, STATE_SIZE};

    #[test]
    fn numbers_have_their_places() {
        let mut state = [0; STATE_SIZE];
        let last = STATE_SIZE - ENTRY_SIZE;
        state[last..].copy_from_slice(b"\x02\0\0\0\x04\x03\x02\x01\x18\0\0\0");
        assert_eq!(number(&state, last + ENTRY_TOTAL), 0x0102_0304);
        let valid = Entry { kind: Kind::Valid, total: 0x0102_0304, usable: 24 };
        assert_eq!(entry(&state, BANKS_MAX - 1), valid);
        assert_eq!(entry(&state, 0).kind, Kind::Empty);
    }

    #[test]
    #[should_panic(expected = "the library answered a bank of kind 3")]
    fn another_kind_is_a_fault() {
        let mut state = [0; STATE_SIZE];
        state[STATE_ENTRIES] = 3;
        entry(&state, 0);
    }
}
