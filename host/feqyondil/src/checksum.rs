//! The checksum, CRC-32 of IEEE 802.3.

use crate::CRC32_TABLE_ENTRIES;

extern "C" {
    fn feqyondil_crc32(bytes: *const u8, bytes_len: usize) -> u32;
    fn feqyondil_crc32_tables(tables: *mut [u32; CRC32_TABLE_ENTRIES]);
    fn feqyondil_crc32_with(
        tables: *const [u32; CRC32_TABLE_ENTRIES],
        bytes: *const u8,
        bytes_len: usize,
    ) -> u32;
}

/// The checksum of `bytes`; the call makes its tables itself.
pub fn crc32(bytes: &[u8]) -> u32 {
    // SAFETY: the pointer and length are those of one live slice, which is only read.
    unsafe { feqyondil_crc32(bytes.as_ptr(), bytes.len()) }
}

/// The checksum's tables, made once in lent entries, for many calls.
#[derive(Clone, Copy)]
pub struct Tables<'a>(&'a [u32; CRC32_TABLE_ENTRIES]);

impl<'a> Tables<'a> {
    /// Fills `entries`, whatever they hold.
    pub fn new(entries: &'a mut [u32; CRC32_TABLE_ENTRIES]) -> Self {
        // SAFETY: the array is live, ours alone, and of the length that the library writes.
        unsafe { feqyondil_crc32_tables(entries) };
        Tables(entries)
    }

    /// The checksum of `bytes` by these tables.
    pub fn crc32(&self, bytes: &[u8]) -> u32 {
        // SAFETY: as for `crc32`; the tables are live and of the right length, and only read.
        unsafe { feqyondil_crc32_with(self.0, bytes.as_ptr(), bytes.len()) }
    }
}

#[cfg(test)]
mod tests {
    use super::*;

    #[test]
    fn both_forms_give_the_check_value() {
        let mut entries = [7; CRC32_TABLE_ENTRIES];
        let tables = Tables::new(&mut entries);
        assert_eq!(crc32(b"123456789"), 0xCBF4_3926);
        assert_eq!(tables.crc32(b"123456789"), 0xCBF4_3926);
        assert_eq!((crc32(b""), tables.crc32(b"")), (0, 0));
    }
}
