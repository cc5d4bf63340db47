//! Banks for the tests.

use std::vec::Vec;

use crate::{crc32, BANK_SIZE};

pub const VALUE: &[u8] = b"123456789";

/// A live record under the key `rate`, with this value from its 42nd byte on.
pub fn record(value: &[u8]) -> Vec<u8> {
    let mut record = b"\xAA\x55\x7F\0\0\0\0\0\x05\0\0\0".to_vec();
    record.extend((value.len() as u32).to_le_bytes());
    record.extend([9; 16]);
    record.extend(crc32(value).to_le_bytes());
    record.extend(b"rate\0");
    record.extend(value);
    record
}

/// A header of this size, a record of each of these values from 24 on, and 0xFF behind them.
pub fn bank(size: u32, values: &[&[u8]]) -> Vec<u8> {
    let mut bank = b"3VVN".to_vec();
    bank.extend(size.to_le_bytes());
    bank.extend(b"\x05\0\0\0\xFE\x5A\x01\0\0\x20\0\0\0\x20\0\0");
    values.iter().for_each(|value| bank.extend(record(value)));
    bank.resize(BANK_SIZE, 0xFF);
    bank
}
