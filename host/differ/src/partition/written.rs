//! Reads a bank as it was written, by offsets alone: its length is known, and every
//! byte that has no say must have its fixed value.

use image::{is_erased, number, Header, Record, HEADER, RECORD};

use super::model;
use super::slot::Bank;

/// The bank in the first `total` bytes, after which all is 0xFF; `usable` is told, not written.
pub fn read(part: &[u8], total: usize, usable: usize) -> Result<Bank<&[u8]>, String> {
    let used = part.get(..total).ok_or("more is used than was written")?;
    if !is_erased(&part[total..]) {
        return Err("a byte behind the records is not 0xFF".to_string());
    }
    let header = header(used).ok_or("no header was written")?;
    let mut records = Vec::new();
    let mut at = HEADER;
    while at < total {
        let wrong = || format!("no record was written at {at}");
        let (record, len) = record(&used[at..]).ok_or_else(wrong)?;
        records.push(record);
        at += len;
    }
    Ok(Bank { header, records, usable })
}

fn header(used: &[u8]) -> Option<Header> {
    let head = used.get(..HEADER)?;
    let fixed = &head[..4] == b"3VVN" && head[14..16] == [1, 0];
    fixed.then(|| model::header(head))
}

fn record(rest: &[u8]) -> Option<(Record<&[u8]>, usize)> {
    let head = rest.get(..RECORD)?;
    let name = number(head, 8) as usize;
    let len = RECORD + name + number(head, 12) as usize;
    let (name, value) = rest.get(RECORD..len)?.split_at(name);
    let (closing, key) = name.split_last()?;
    let fixed = head[..2] == [0xAA, 0x55] && (head[3], *closing) == (0, 0);
    let right = fixed && crc32fast::hash(value) == number(head, 32);
    right.then(|| (model::record(head, key, value), len))
}

#[cfg(test)]
mod tests {
    use super::*;

    fn bank(closing: u8) -> Vec<u8> {
        let record = Record { closing, ..Record::live(b"rate", b"123456789") };
        image::bank(&Header::default(), &[record])
    }

    #[test]
    fn a_written_bank_is_read() {
        let bank = bank(0);
        let read = read(&bank, 74, 90).unwrap();
        assert_eq!((read.header, read.usable), (Header::default(), 90));
        let records: Vec<Record> = read.records.iter().map(|r| r.map(|b| b.to_vec())).collect();
        assert_eq!(records, [Record::live(b"rate", b"123456789")]);
    }

    #[test]
    fn what_is_not_as_written_is_refused() {
        assert!(read(&bank(1), 74, 74).is_err());
        for total in [0, 24, 73, 75, 65_537] {
            assert!(read(&bank(0), total, 74).is_err(), "total {total}");
        }
        // The header's reserved byte, the checksum and the value.
        for at in [15, 56, 73] {
            let mut bank = bank(0);
            bank[at] ^= 1;
            assert!(read(&bank, 74, 74).is_err(), "at {at}");
        }
    }
}
