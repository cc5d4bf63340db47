//! Stores of 2 and 16 banks, nearly empty and full.

use image::{Header, Record, BANK, HEADER, RECORD};
use oracle::v3;

use crate::lent::Lent;

/// What a bank has for its records, and what it has where an insert is to stay in place.
pub const ROOM: usize = BANK - HEADER;
pub const INSERT_ROOM: usize = ROOM - 256;
/// Bytes of a small record.
const SMALL: usize = 60;

pub struct Case {
    pub name: String,
    pub banks: usize,
    pub records: Vec<Record>,
    pub image: Vec<u8>,
    /// What the port's opening is to stay under, over the Rust's; its commits too.
    pub most: f64,
}

impl Case {
    /// Every bank is Valid, and the last is the active one. No limit is reached.
    pub fn new(banks: usize, fill: &str, records: Vec<Record>, most: f64) -> Self {
        let header =
            |generation| Header { generation, system_limit: u32::MAX, ..Header::default() };
        let image = (1..=banks as u32).map(|i| image::bank(&header(i), &records));
        Case {
            name: format!("{banks} banks, {fill}"),
            banks,
            image: image.collect::<Vec<_>>().concat(),
            records,
            most,
        }
    }

    /// The port's state and work area of the image, and the Rust's store.
    pub fn opened(&self) -> (Lent, v3::Nvram<'_>) {
        let mut lent = Lent::new(self.banks, self.last());
        assert_eq!(lent.open(&self.image), 1);
        (lent, v3::Nvram::parse(&self.image).expect("Valid banks"))
    }

    /// The record that a walk reaches last.
    pub fn last(&self) -> &Record {
        &self.records[self.records.len() - 1]
    }
}

pub fn cases(room: usize) -> Vec<Case> {
    let empty = |banks| Case::new(banks, "nearly empty", one(), 1.0);
    let full = |banks| Case::new(banks, "full of small records", small(room), 1.5);
    vec![empty(2), full(2), empty(16), full(16)]
}

pub fn one() -> Vec<Record> {
    vec![Record::live(b"rate", b"123456789")]
}

/// As many small records as there is room for.
pub fn small(room: usize) -> Vec<Record> {
    let value = SMALL - RECORD - 5;
    let record = |i: usize| Record::live(format!("{i:04}").as_bytes(), &vec![i as u8; value]);
    (0..room / SMALL).map(record).collect()
}

/// What a winder's bank is full of: every hour's strike count, all but the last one dead.
pub fn strikes(room: usize) -> Vec<Record> {
    let strike = |i: u32| Record::live(b"strikes", &i.to_le_bytes());
    let many = room / strike(0).bytes().len();
    let mut records: Vec<Record> = (0..many as u32).map(strike).collect();
    records[..many - 1].iter_mut().for_each(|r| r.state = 0x7C);
    records
}

#[cfg(test)]
mod tests {
    use super::*;

    #[test]
    fn small_records_are_as_small_as_said() {
        let records = small(ROOM);
        assert!(records.iter().all(|r| r.bytes().len() == SMALL));
        assert_eq!(records.len(), 1091);
    }
}
