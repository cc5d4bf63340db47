//! What a bank is by the words of the scope paper (01), 'Bank and record', and why its reading
//! stopped by those of N2: written from them and from neither side's code, so that it can judge the
//! port where the Rust cannot.

use feqyondil::{Cause, Spot};
use image::{is_erased, number, Header, Record};

use super::slot::{Bank, Slot};

/// A bank as 01 reads it.
pub struct Reading<'a> {
    pub slot: Slot<&'a [u8]>,
    /// Why it stopped.
    pub cause: Cause,
    /// Why the bank lies outside the domain on which the Rust and the port are equal, if it does.
    pub outside: Option<Outside>,
}

#[derive(Clone, Copy, Debug, PartialEq)]
pub enum Outside {
    /// Good signature and version, and a size that is not 24 to 65,536.
    Size,
    /// A record that was reached has name length 0.
    Name,
    /// A record that was reached has name and value of 2^32 or more together.
    Sum,
}

/// What the walk meets at an offset.
enum Met<'a> {
    Record(Record<&'a [u8]>, usize),
    Stop { cause: Cause, usable: usize },
    TooLong,
    NoName,
    WrongCrc,
}

pub fn read(bank: &[u8]) -> Reading<'_> {
    assert_eq!(bank.len(), 65_536);
    let size = number(bank, 4);
    if is_erased(bank) {
        return Reading { slot: Slot::Empty, cause: Cause::Empty, outside: None };
    }
    if &bank[..4] != b"3VVN" {
        return invalid(Cause::Signature, None);
    }
    if bank[14] != 1 {
        return invalid(Cause::Version, None);
    }
    if !(24..=65_536).contains(&size) {
        return invalid(Cause::Size, Some(Outside::Size));
    }
    walk(bank, size as usize)
}

fn walk(bank: &[u8], size: usize) -> Reading<'_> {
    let mut records = Vec::new();
    let mut offset = 24;
    let (mut cause, mut usable, mut outside) = (Cause::End, size, None);
    while offset + 36 < size {
        let spot = |field| Spot { place: offset + field, index: records.len() };
        match meet(bank, size, offset) {
            Met::Record(record, len) => {
                records.push(record);
                offset += len;
                continue;
            }
            Met::Stop { cause: why, usable: at } => (cause, usable) = (why, at),
            Met::TooLong => (cause, usable, outside) = (Cause::Length, offset, Some(Outside::Sum)),
            Met::NoName => return invalid(Cause::Name(spot(8)), Some(Outside::Name)),
            Met::WrongCrc => return invalid(Cause::Crc(spot(32)), None),
        }
        break;
    }
    let slot = Slot::Valid(Bank { header: header(bank), records, usable });
    Reading { slot, cause, outside }
}

fn meet(bank: &[u8], size: usize, offset: usize) -> Met<'_> {
    let head = &bank[offset..offset + 36];
    if head.iter().all(|&b| b == 0 || b == 0xFF) {
        let later = bank[offset + 36..size].iter().position(|&b| b != 0xFF);
        let usable = later.map_or(size, |count| offset + 36 + count);
        return Met::Stop { cause: Cause::Blank, usable };
    }
    if head[..2] != [0xAA, 0x55] {
        return Met::Stop { cause: Cause::Start, usable: offset };
    }
    let (name, value) = (number(head, 8) as u64, number(head, 12) as u64);
    if name + value >= 1 << 32 {
        return Met::TooLong;
    }
    let len = (36 + name + value) as usize;
    if len > 65_536 - offset {
        return Met::Stop { cause: Cause::Length, usable: offset };
    }
    if name == 0 {
        return Met::NoName;
    }
    let (name, value) = bank[offset + 36..offset + len].split_at(name as usize);
    if crc32fast::hash(value) != number(head, 32) {
        return Met::WrongCrc;
    }
    Met::Record(record(head, &name[..name.len() - 1], value), len)
}

/// The fields of the header that begins `bank`, of version 1.
pub fn header(bank: &[u8]) -> Header {
    Header {
        size: number(bank, 4),
        generation: number(bank, 8),
        state: bank[12],
        flags: bank[13],
        system_limit: number(bank, 16),
        common_limit: number(bank, 20),
        ..Header::default()
    }
}

/// The fields of a record's header, with its key and its value.
pub fn record<'a>(head: &[u8], key: &'a [u8], value: &'a [u8]) -> Record<&'a [u8]> {
    Record {
        state: head[2],
        attributes: number(head, 4),
        guid: head[16..32].try_into().expect("16 bytes"),
        key,
        value,
        ..Record::default()
    }
}

fn invalid<'a>(cause: Cause, outside: Option<Outside>) -> Reading<'a> {
    Reading { slot: Slot::Invalid, cause, outside }
}
