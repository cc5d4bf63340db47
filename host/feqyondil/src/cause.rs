//! Why reading a bank stopped.

use core::fmt::{self, Display, Formatter};

use crate::partition::narrow;

extern "C" {
    fn feqyondil_bank_cause(nvr: *const u8, nvr_len: usize, spot: *mut [u64; 2]) -> u32;
}

/// Where a record has a fault.
#[derive(Clone, Copy, Debug, Eq, PartialEq)]
pub struct Spot {
    /// Of the byte, counted from the start of the bank.
    pub place: usize,
    /// Of the record, counted from 0.
    pub index: usize,
}

/// Why reading a bank stopped. `Display` is the line that the program `bankcause` prints.
#[derive(Clone, Copy, Debug, Eq, PartialEq)]
pub enum Cause {
    /// Too few bytes were lent.
    Short,
    /// All of it is 0xFF.
    Empty,
    /// The header's signature is another.
    Signature,
    /// The header's version is another.
    Version,
    /// The header's size is not 24 to 65,536.
    Size,
    /// A record's name length is 0.
    Name(Spot),
    /// A record's CRC is not that of its value.
    Crc(Spot),
    /// Reading stopped at a blank.
    Blank,
    /// Reading stopped at a wrong start number.
    Start,
    /// Reading stopped at a record over what remains of the bank.
    Length,
    /// Reading stopped at the end of the header's size.
    End,
}

impl Cause {
    /// It makes the bank Invalid.
    pub fn is_fault(self) -> bool {
        self.place().is_some()
    }

    /// The place of a fault's byte, counted from the start of the bank.
    pub fn place(self) -> Option<usize> {
        match self {
            Cause::Signature => Some(0),
            Cause::Version => Some(14),
            Cause::Size => Some(4),
            Cause::Name(spot) | Cause::Crc(spot) => Some(spot.place),
            _ => None,
        }
    }

    /// The index of the record that has the fault, counted from 0.
    pub fn index(self) -> Option<usize> {
        match self {
            Cause::Name(spot) | Cause::Crc(spot) => Some(spot.index),
            _ => None,
        }
    }

    fn word(self) -> &'static str {
        match self {
            Cause::Short => "short",
            Cause::Empty => "empty",
            Cause::Signature => "signature",
            Cause::Version => "version",
            Cause::Size => "size",
            Cause::Name(_) => "name",
            Cause::Crc(_) => "crc",
            Cause::Blank => "blank",
            Cause::Start => "start",
            Cause::Length => "length",
            Cause::End => "end",
        }
    }
}

impl Display for Cause {
    fn fmt(&self, f: &mut Formatter) -> fmt::Result {
        f.write_str(self.word())?;
        let numbers = [self.place(), self.index()];
        numbers.into_iter().flatten().try_for_each(|number| write!(f, " {number}"))
    }
}

/// Why reading the bank in the first 65,536 bytes of `nvr` stopped: the first cause met. That is
/// Short, Empty, one of the header's (signature, version, size), or record by record the end of the
/// size, a blank, the start number, the length, the name length, the CRC. A fault behind it is not
/// named.
pub fn bank_cause(nvr: &[u8]) -> Cause {
    let mut spot = [u64::MAX; 2];
    // SAFETY: pointer and length are those of a live slice, which is only read;
    // the array is live, ours alone, and of the length that the library writes.
    let number = unsafe { feqyondil_bank_cause(nvr.as_ptr(), nvr.len(), &mut spot) };
    told(number, spot)
}

/// An answer that the library does not promise is a fault of its own, and ends the program.
pub(crate) fn told(number: u32, spot: [u64; 2]) -> Cause {
    let of_record = || Spot { place: narrow(spot[0]), index: narrow(spot[1]) };
    match (number, spot) {
        (0, [0, 0]) => Cause::Short,
        (1, [0, 0]) => Cause::Empty,
        (2, [0, 0]) => Cause::Signature,
        (3, [14, 0]) => Cause::Version,
        (4, [4, 0]) => Cause::Size,
        (5, _) => Cause::Name(of_record()),
        (6, _) => Cause::Crc(of_record()),
        (7, [0, 0]) => Cause::Blank,
        (8, [0, 0]) => Cause::Start,
        (9, [0, 0]) => Cause::Length,
        (10, [0, 0]) => Cause::End,
        _ => panic!("the library answered {number} with {spot:?}"),
    }
}

#[cfg(test)]
mod tests;
