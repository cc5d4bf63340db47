//! The value of an insert.

use ::image::RECORD;

use super::bytes::Bytes;
use crate::store::book::{Bank, PART};

#[derive(Clone, Debug, PartialEq)]
pub enum Value {
    Of(Bytes),
    /// As many bytes as there is room for in the record, and so many more; of one value or random.
    Room(Room, isize, Option<u8>),
}

#[derive(Clone, Copy, Debug, PartialEq)]
pub enum Room {
    /// What is usable.
    Usable,
    /// The same where it ends before the bank's size, since something is written there; else none.
    Gap,
    /// The bank's size once it has moved.
    Size,
    /// The work area.
    Part,
}

impl Value {
    pub fn made(&self, bank: Option<&Bank>, key: usize) -> Vec<u8> {
        match self {
            Value::Of(bytes) => bytes.made(),
            Value::Room(room, more, byte) => {
                let left = bank.map_or(0, |bank| room.left(bank, key));
                let len = (left + more).max(0) as usize;
                byte.map_or(Bytes::Random(len, 0), |byte| Bytes::Fill(len, byte)).made()
            }
        }
    }
}

impl Room {
    /// Of a value under a key of this length; below 0 where the record itself has none.
    pub fn left(self, bank: &Bank, key: usize) -> isize {
        let size = bank.header.size as usize;
        let (end, used) = match self {
            Room::Gap if bank.usable == size => return 0,
            Room::Usable | Room::Gap => (bank.usable, bank.total()),
            Room::Size => (size, bank.live()),
            Room::Part => (PART, bank.total()),
        };
        end as isize - (used + RECORD + key + 1) as isize
    }
}
