//! The Rust's reading of a bank, seen from outside: the oracle is built unchanged.

use std::borrow::Cow;
use std::fmt::Display;
use std::panic::{catch_unwind, UnwindSafe};
use std::str::FromStr;

use image::{Header, Record};
use oracle::{v3, Nvram};

use super::slot::{Bank, Slot};
use super::{written, Read};

/// How the first bank of `image` is read. The second is to be Valid and without records:
/// without a Valid bank the Rust says nothing. A panic is an answer too.
pub fn read(image: &[u8]) -> Read<'_> {
    told(|| opened(image))
}

/// Whether the two banks of `image` are Valid, with equal header fields and records.
pub fn same_settings(image: &[u8]) -> Result<bool, String> {
    told(|| compared(image))
}

fn told<T>(answer: impl FnOnce() -> Result<T, String> + UnwindSafe) -> Result<T, String> {
    catch_unwind(answer).unwrap_or_else(|_| Err("it panics".to_string()))
}

fn opened(image: &[u8]) -> Read<'_> {
    let store = v3::Nvram::parse(image).map_err(|e| format!("it refuses the image: {e:?}"))?;
    if let [bank, _] = peek::valid_banks(&store)[..] {
        let bank = view(bank)?;
        written_back(&store, &bank)?;
        return Ok(Slot::Valid(bank));
    }
    let text = format!("{store:?}");
    match text.strip_prefix("Nvram { partitions: [") {
        Some(slots) if slots.starts_with("Empty, ") => Ok(Slot::Empty),
        Some(slots) if slots.starts_with("Invalid, ") => Ok(Slot::Invalid),
        _ => Err(format!("it answers {text}")),
    }
}

fn view<'a>(bank: &v3::Partition<'a>) -> Result<Bank<&'a [u8]>, String> {
    // A private field is told by Debug alone, which is slow over records.
    let mut bare = bank.clone();
    bare.values = Vec::new();
    let total = figure(bank, "total_used: ")?;
    let bank = Bank {
        header: header(&bank.header),
        records: bank.values.iter().map(|v| record(v, lent)).collect::<Result<_, _>>()?,
        usable: figure(format!("{bare:?}"), "empty_region_end: ")?,
    };
    match total == bank.total() {
        true => Ok(bank),
        false => Err(format!("it counts {total} bytes, and has {}", bank.total())),
    }
}

pub fn header(header: &v3::StoreHeader) -> Header {
    Header {
        size: header.size,
        generation: header.generation,
        state: header.state,
        flags: header.flags,
        version: header.version,
        reserved: 0,
        system_limit: header.system_size,
        common_limit: header.common_size,
    }
}

/// With its bytes taken in some way.
pub fn record<'v, 'a, B: AsRef<[u8]>>(
    variable: &'v v3::Variable<'a>,
    bytes: impl Fn(&'v Cow<'a, [u8]>) -> B,
) -> Result<Record<B>, String> {
    let header = &variable.header;
    let record = Record {
        state: header.state,
        reserved: 0,
        attributes: header.attrs,
        guid: header.guid.try_into().expect("16 bytes"),
        key: bytes(&variable.key),
        closing: 0,
        value: bytes(&variable.value),
    };
    let (key, value) = (record.key.as_ref(), record.value.as_ref());
    let own = (key.len() as u32 + 1, value.len() as u32, crc32fast::hash(value));
    match own == (header.name_size, header.data_size, header.crc) {
        true => Ok(record),
        false => Err("it has a record with wrong lengths or a wrong checksum".to_string()),
    }
}

fn lent<'a>(bytes: &Cow<'a, [u8]>) -> &'a [u8] {
    match bytes {
        Cow::Borrowed(bytes) => bytes,
        Cow::Owned(_) => unreachable!("a bank that was only read owns nothing"),
    }
}

/// The number behind `name` in what `told` prints.
pub fn figure(told: impl Display, name: &str) -> Result<usize, String> {
    let text = told.to_string();
    let behind = text.rsplit_once(name).and_then(|(_, rest)| leading(rest));
    behind.ok_or_else(|| format!("no {name}in {text}"))
}

/// The number that a text begins with.
pub fn leading<T: FromStr>(text: &str) -> Option<T> {
    let end = text.find(|c: char| !c.is_ascii_digit());
    text[..end.unwrap_or(text.len())].parse().ok()
}

/// The Rust writes what it read; where the records pass the size it would never end.
fn written_back(store: &v3::Nvram, bank: &Bank<&[u8]>) -> Result<(), String> {
    if bank.is_over() {
        return Ok(());
    }
    let bytes = store.serialize().map_err(|e| format!("{e:?}"))?;
    let size = bank.header.size as usize;
    match written::read(&bytes[..size], bank.total(), bank.usable)? == *bank {
        true => Ok(()),
        false => Err("it writes another bank than it read".to_string()),
    }
}

/// Where it can write both banks, what it writes has to say the same.
fn compared(image: &[u8]) -> Result<bool, String> {
    // It refuses the image where no bank is Valid.
    let Ok(store) = v3::Nvram::parse(image) else {
        return Ok(false);
    };
    let [one, other] = peek::valid_banks(&store)[..] else {
        return Ok(false);
    };
    let (one, other) = (view(one)?, view(other)?);
    let same = one.same_settings(&other);
    if one.is_over() || other.is_over() {
        return Ok(same);
    }
    let bytes = store.serialize().map_err(|e| format!("{e:?}"))?;
    let (first, second) = bytes.split_at(one.header.size as usize);
    match (first == second) == same {
        true => Ok(same),
        false => Err(format!("of fields and records {same}, and it writes otherwise")),
    }
}

#[cfg(test)]
mod tests {
    use super::*;

    #[test]
    fn a_checksum_or_a_length_that_is_not_the_records_is_seen() {
        let bank = image::bank(&Header::default(), &[Record::live(b"rate", b"123456789")]);
        let read = |change: fn(&mut v3::VarHeader)| {
            let mut store = v3::Nvram::parse(&bank).unwrap();
            let bank = peek::active_bank(&mut store);
            change(&mut bank.values[0].header);
            view(bank).map(|bank| bank.total())
        };
        assert_eq!(read(|_| ()), Ok(74));
        assert!(read(|header| header.crc ^= 1).is_err());
        assert!(read(|header| header.name_size += 1).is_err());
    }
}
