//! Whether two banks hold the same settings.

use crate::refusal::Refusal;

extern "C" {
    fn feqyondil_same_settings(
        one: *const u8,
        one_len: usize,
        other: *const u8,
        other_len: usize,
        same: *mut [u64; 1],
    ) -> u32;
}

/// Whether two banks hold the same settings: both are Valid, their headers' named fields are equal
/// (those of [`Partition`](crate::Partition) but for total and usable), and their records are
/// equal, in order, dead ones too. Reserved and closing bytes, what stands behind the records, and
/// the usable size that follows from it do not count.
///
/// It is so just where both are Valid and would be written with equal bytes.
///
/// Refusal: BankLength, where either is not exactly [`BANK_SIZE`](crate::BANK_SIZE) bytes.
pub fn same_settings(one: &[u8], other: &[u8]) -> Result<bool, Refusal> {
    let mut same = [u64::MAX];
    let (one, one_len) = (one.as_ptr(), one.len());
    let (other, other_len) = (other.as_ptr(), other.len());
    // SAFETY: each pointer and length are those of a live slice, which is only read;
    // the array is live, ours alone, and of the length that the library writes.
    let number = unsafe { feqyondil_same_settings(one, one_len, other, other_len, &mut same) };
    told(number, same)
}

/// An answer that the library does not promise is a fault of its own, and ends the program.
fn told(number: u32, same: [u64; 1]) -> Result<bool, Refusal> {
    match (Refusal::check(number), same) {
        (Ok(()), [0]) => Ok(false),
        (Ok(()), [1]) => Ok(true),
        (Err(refusal), [0]) => Err(refusal),
        _ => panic!("the library answered {number} with {same:?}"),
    }
}

#[cfg(test)]
mod tests {
    use super::*;
    use crate::samples::{self, VALUE};
    use crate::{partition_parse, Slot, BANK_SIZE};
    use std::vec;
    use std::vec::Vec;

    /// Of one live record from 24 on, with this value from 65 on.
    fn bank(value: &[u8]) -> Vec<u8> {
        samples::bank(65_536, &[value])
    }

    /// The answer for that bank and the same with other bytes from a place on.
    fn with(at: usize, bytes: &[u8]) -> Result<bool, Refusal> {
        let (one, mut other) = (bank(VALUE), bank(VALUE));
        other[at..at + bytes.len()].copy_from_slice(bytes);
        assert_ne!(one, other, "at {at}");
        let same = same_settings(&one, &other);
        assert_eq!(same_settings(&other, &one), same, "at {at}");
        same
    }

    #[test]
    fn a_reserved_byte_at_255_is_the_same_settings() {
        // The header's, the record's.
        for at in [15, 24 + 3] {
            assert_eq!(with(at, &[255]), Ok(true), "at {at}");
        }
    }

    #[test]
    fn closing_bytes_and_what_is_behind_do_not_count() {
        assert_eq!(with(64, &[255]), Ok(true));
        assert_eq!(with(74, &[0; 36]), Ok(true));
        assert_eq!(with(74 + 36, &[0]), Ok(true));
        assert_eq!(with(74, b"no start number"), Ok(true));
        let mut bank = bank(VALUE);
        bank[74 + 36] = 0;
        assert!(matches!(partition_parse(&bank), Slot::Valid(bank) if bank.usable == 74 + 36));
    }

    #[test]
    fn every_named_field_counts() {
        let size = 65_535u32.to_le_bytes();
        assert_eq!(with(4, &size), Ok(false));
        // Generation, state, flags, limits; state, attributes, GUID and key of the record.
        for at in [8, 12, 13, 16, 20, 26, 28, 40, 60] {
            assert_eq!(with(at, &[1]), Ok(false), "at {at}");
        }
        for value in [&b"123456780"[..], b"12345678", b""] {
            assert_eq!(same_settings(&bank(VALUE), &bank(value)), Ok(false));
        }
    }

    #[test]
    fn only_valid_banks_are_the_same() {
        let bank = bank(VALUE);
        assert_eq!(same_settings(&bank, &bank), Ok(true));
        assert_eq!(with(65, b"0"), Ok(false)); // the checksum is another's
        for byte in [0xFF, 0] {
            let (none, same) = (vec![byte; BANK_SIZE], vec![byte; BANK_SIZE]);
            assert_eq!(same_settings(&none, &same), Ok(false));
            assert_eq!(same_settings(&none, &bank), Ok(false));
        }
    }

    #[test]
    fn a_bank_of_another_length_is_refused() {
        let whole = bank(VALUE);
        for first in [whole.clone(), vec![0xFF; BANK_SIZE], vec![0; BANK_SIZE]] {
            for len in [0, BANK_SIZE - 1, BANK_SIZE + 1, 2 * BANK_SIZE] {
                let mut other = whole.clone();
                other.resize(len, 0xFF);
                assert_eq!(same_settings(&first, &other), Err(Refusal::BankLength), "{len}");
                assert_eq!(same_settings(&other, &first), Err(Refusal::BankLength), "{len}");
                assert_eq!(same_settings(&other, &other), Err(Refusal::BankLength), "{len}");
            }
        }
    }

    #[test]
    #[should_panic(expected = "the library answered 14 with [1]")]
    fn a_refusal_that_says_yes_is_a_fault() {
        let _ = told(14, [1]);
    }
}
