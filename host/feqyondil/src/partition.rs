//! Reading a bank, and writing it as it would be written.

extern "C" {
    fn feqyondil_partition_parse(nvr: *const u8, nvr_len: usize, fields: *mut [u64; 8]) -> u32;
    fn feqyondil_partition_serialize(
        nvr: *const u8,
        nvr_len: usize,
        part: *mut u8,
        part_len: usize,
        fields: *mut [u64; 8],
    ) -> u32;
}

/// What a bank is.
#[derive(Clone, Copy, Debug, Eq, PartialEq)]
pub enum Slot {
    /// Too few bytes were lent.
    Short,
    /// All of it is 0xFF.
    Empty,
    /// Neither of the others.
    Invalid,
    /// It has a good header and good records.
    Valid(Partition),
}

/// A Valid bank without its records.
#[derive(Clone, Copy, Debug, Eq, PartialEq)]
pub struct Partition {
    /// Bytes of the bank, up to 65,536.
    pub size: u32,
    /// A move raises it by 1.
    pub generation: u32,
    /// The header's byte of this name.
    pub state: u8,
    /// The same.
    pub flags: u8,
    /// What live system records may take.
    pub system_limit: u32,
    /// What live common records may take.
    pub common_limit: u32,
    /// Bytes of the header and of all records, dead ones too.
    pub total: usize,
    /// A commit moves the bank where its total is over this.
    pub usable: usize,
}

/// Reads the bank in the first 65,536 bytes of `nvr`.
pub fn partition_parse(nvr: &[u8]) -> Slot {
    let mut fields = [u64::MAX; 8];
    // SAFETY: pointer and length are those of a live slice, which is only read;
    // the array is live, ours alone, and of the length that the library writes.
    let number = unsafe { feqyondil_partition_parse(nvr.as_ptr(), nvr.len(), &mut fields) };
    slot(number, fields)
}

/// The same, and the bank as it would be written to `part`, then 0xFF to its end; all 0xFF for a
/// bank that isn't Valid. Short where either is below 65,536 bytes; `part` is then left as it was.
pub fn partition_serialize(nvr: &[u8], part: &mut [u8]) -> Slot {
    let mut fields = [u64::MAX; 8];
    let (to, len) = (part.as_mut_ptr(), part.len());
    // SAFETY: as above; `part` is a live slice too, lent for writing, so apart from `nvr`.
    let number =
        unsafe { feqyondil_partition_serialize(nvr.as_ptr(), nvr.len(), to, len, &mut fields) };
    slot(number, fields)
}

/// An answer that the library does not promise is a fault of its own, and ends the program.
pub(crate) fn slot(number: u32, fields: [u64; 8]) -> Slot {
    match (number, fields) {
        (0, [0, 0, 0, 0, 0, 0, 0, 0]) => Slot::Short,
        (1, [0, 0, 0, 0, 0, 0, 0, 0]) => Slot::Empty,
        (2, [0, 0, 0, 0, 0, 0, 0, 0]) => Slot::Invalid,
        (3, [size, generation, state, flags, system, common, total, usable]) => {
            Slot::Valid(Partition {
                size: narrow(size),
                generation: narrow(generation),
                state: narrow(state),
                flags: narrow(flags),
                system_limit: narrow(system),
                common_limit: narrow(common),
                total: narrow(total),
                usable: narrow(usable),
            })
        }
        _ => panic!("the library answered {number} with {fields:?}"),
    }
}

pub(crate) fn narrow<T: TryFrom<u64>>(field: u64) -> T {
    T::try_from(field)
        .unwrap_or_else(|_| panic!("the library answered {field}, too large for its field"))
}

#[cfg(test)]
mod tests {
    use super::*;
    use crate::BANK_SIZE;
    use std::vec;

    #[test]
    fn each_kind_is_told() {
        let mut nvr = vec![0xFF; BANK_SIZE];
        assert_eq!(partition_parse(&nvr[1..]), Slot::Short);
        assert_eq!(partition_parse(&nvr), Slot::Empty);
        nvr[..8].copy_from_slice(b"3VVN\x18\0\0\0");
        assert_eq!(partition_parse(&nvr), Slot::Invalid);
        nvr[14] = 1;
        let Slot::Valid(bank) = partition_parse(&nvr) else {
            panic!("the bank is Valid");
        };
        assert_eq!((bank.size, bank.generation), (24, u32::MAX));
        assert_eq!((bank.total, bank.usable), (24, 24));
    }

    #[test]
    fn a_bank_is_written_into_the_part() {
        let mut nvr = vec![0xFF; BANK_SIZE];
        let mut part = vec![7; BANK_SIZE + 3];
        assert_eq!(partition_serialize(&nvr, &mut part[..9]), Slot::Short);
        assert_eq!(part, [7; BANK_SIZE + 3]);
        assert_eq!(partition_serialize(&nvr, &mut part), Slot::Empty);
        assert_eq!(part, [0xFF; BANK_SIZE + 3]);
        nvr[..8].copy_from_slice(b"3VVN\x18\0\0\0");
        nvr[14] = 1;
        assert!(matches!(partition_serialize(&nvr, &mut part), Slot::Valid(_)));
        nvr[15] = 0; // reserved
        assert_eq!(part[..24], nvr[..24]);
    }
}
