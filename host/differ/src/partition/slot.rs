//! What a bank is, in the words that all readers answer in and that the book is kept in.

use std::fmt::{self, Display, Formatter};

use image::{hex, Header, Record, HEADER, RECORD};

/// More records than these are counted, not printed.
const PRINTED: usize = 32;

/// Its records' bytes are owned, or lent by what was read.
#[derive(Clone, Debug, PartialEq)]
pub enum Slot<B = Vec<u8>> {
    Empty,
    Invalid,
    Valid(Bank<B>),
}

/// A Valid bank: its reserved and closing bytes are 0, its lengths and checksums are right.
#[derive(Clone, Debug, PartialEq)]
pub struct Bank<B = Vec<u8>> {
    pub header: Header,
    pub records: Vec<Record<B>>,
    pub usable: usize,
}

impl<B> Slot<B> {
    pub fn kind(&self) -> &'static str {
        match self {
            Slot::Empty => "Empty",
            Slot::Invalid => "Invalid",
            Slot::Valid(_) => "Valid",
        }
    }
}

impl Slot<&[u8]> {
    pub fn owned(self) -> Slot {
        match self {
            Slot::Empty => Slot::Empty,
            Slot::Invalid => Slot::Invalid,
            Slot::Valid(bank) => Slot::Valid(Bank {
                header: bank.header,
                records: bank.records.iter().map(|r| r.map(|b| b.to_vec())).collect(),
                usable: bank.usable,
            }),
        }
    }
}

impl<B: AsRef<[u8]>> Bank<B> {
    /// The header and all records, dead ones too.
    pub fn total(&self) -> usize {
        HEADER + self.records.iter().map(size).sum::<usize>()
    }

    /// Its records pass the size.
    pub fn is_over(&self) -> bool {
        self.total() > self.header.size as usize
    }

    /// Where its records start.
    pub fn starts(&self) -> Vec<usize> {
        let mut at = HEADER;
        let start = |record| {
            at += size(record);
            at - size(record)
        };
        self.records.iter().map(start).collect()
    }
}

impl<B: PartialEq> Bank<B> {
    /// The headers' fields and the records are equal; usable may be another.
    pub fn same_settings(&self, other: &Self) -> bool {
        self.header == other.header && self.records == other.records
    }
}

pub fn size<B: AsRef<[u8]>>(record: &Record<B>) -> usize {
    RECORD + record.key.as_ref().len() + 1 + record.value.as_ref().len()
}

impl<B: AsRef<[u8]>> Display for Slot<B> {
    fn fmt(&self, f: &mut Formatter) -> fmt::Result {
        write!(f, "{}", self.kind())?;
        let Slot::Valid(bank) = self else {
            return Ok(());
        };
        let head = &bank.header;
        write!(f, ", total {}, usable {}, ", bank.total(), bank.usable)?;
        write!(f, "size {}, generation {}, ", head.size, head.generation)?;
        write!(f, "state {:02x}, flags {:02x}, ", head.state, head.flags)?;
        write!(f, "limits {} {}, ", head.system_limit, head.common_limit)?;
        write!(f, "{} records", bank.records.len())?;
        for (i, record) in bank.records.iter().take(PRINTED).enumerate() {
            write!(f, "\n    {i}: {:?}", record.map(|b| hex(b.as_ref())))?;
        }
        Ok(())
    }
}

#[cfg(test)]
mod tests {
    use super::*;

    #[test]
    fn long_values_are_cut() {
        let slot = Slot::Valid(Bank {
            header: Header::default(),
            records: vec![Record::live(&[], &[2; 40]); 33],
            usable: 7,
        });
        let text = slot.to_string();
        assert!(text.starts_with("Valid, total 2565, usable 7, size 65536, "));
        assert!(text.contains(", 33 records\n    0: Record {"), "{text}");
        assert!(text.contains(r#"key: "-", value: "0202"#), "{text}");
        assert!(text.ends_with(r#"02.. of 40 bytes" }"#), "{text}");
        assert_eq!(text.lines().count(), 1 + 32);
    }
}
