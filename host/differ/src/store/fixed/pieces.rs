//! The banks and calls that fixed runs are made of.

use image::{put_number, Header, Record, BANK, HEADER, RECORD};

use crate::store::book::PART;
use crate::store::lent::call::{Call, What};
use crate::store::run::Run;

pub type Named = (&'static str, Run);
/// A run, and what those of its calls answer that it is made for.
pub type Numbered = (Named, &'static [u32]);

/// Room for every value of the list.
const ROOM: usize = PART;

/// A bank of this generation with one live system record, `rate`: 74 bytes.
pub fn held(generation: u32) -> Vec<u8> {
    let header = Header { generation, ..Header::default() };
    image::bank(&header, &[Record::live(b"rate", b"123456789")])
}

/// The same of generation 1 and this size, with bytes behind the record.
pub fn ending(size: usize, then: &[u8]) -> Vec<u8> {
    let mut bank = held(1);
    put_number(&mut bank, 4, size as u32);
    bank[74..74 + then.len()].copy_from_slice(then);
    bank
}

/// One of size 61 whose record passes it and is dead.
pub fn dead_past_size() -> Vec<u8> {
    let mut bank = ending(61, &[]);
    bank[HEADER + 2] = 0x7C;
    bank
}

/// The same bank, with limits that nothing reaches.
pub fn unlimited(mut bank: Vec<u8>) -> Vec<u8> {
    bank[16..HEADER].fill(0xFF);
    bank
}

/// A bank of this size and generation with `rate`, and without limits.
pub fn sized(size: usize, generation: u32) -> Vec<u8> {
    let mut bank = unlimited(held(generation));
    put_number(&mut bank, 4, size as u32);
    bank
}

/// A value under `k` that leaves no byte of the bank beside `rate`, and so many bytes more.
pub fn fill_and(more: usize) -> Call {
    put(b"k", &vec![0x41; BANK - 74 - RECORD - 2 + more], 0)
}

pub fn put(key: &[u8], value: &[u8], typ: u32) -> Call {
    Call::insert(key, value, typ)
}

pub fn remove(key: &[u8], typ: u32) -> Call {
    Call::new(What::Remove, key, typ)
}

pub fn get(key: &[u8], typ: u32) -> Call {
    Call::new(What::Lookup, key, typ)
}

pub fn value(key: &[u8], typ: u32) -> Call {
    Call::new(What::Value(ROOM), key, typ)
}

pub fn whole(n: usize) -> Call {
    Call::whole(n * BANK)
}
