//! Inserts, removes and lookups, by 'Edits and lookups' and 'Refusals' in 01, and by N5 of the
//! change requests (02).

use image::{Record, COMMON_GUID, HEADER, RECORD, SYSTEM_GUID};

use super::bank::{size, Bank, LIVE, PART};
use super::list::Book;
use crate::store::lent::call::{Answer, Call, Manner, What};

const DEAD: u8 = 0x7C;
/// What the barrel controller has for a value.
const BARREL_VALUE: usize = 512;

impl Book {
    pub fn edit(&mut self, call: &Call) -> Answer {
        let Some(bank) = self.active_bank_mut() else {
            return call.refused(7);
        };
        match &call.what {
            What::Insert(manner, value) => {
                if *manner == Manner::Barrel && value.len() > BARREL_VALUE {
                    return call.refused(15);
                }
                if !bank.has_room(call, value) {
                    return call.refused(8);
                }
                bank.kill(call);
                bank.records.push(fresh(call, value));
            }
            _ => bank.kill(call),
        }
        Answer::Number(0)
    }

    pub fn lookup(&self, call: &Call) -> Answer {
        let Some(bank) = self.active_bank() else {
            return call.refused(7);
        };
        let Some(at) = bank.records.iter().position(|r| matches(r, call)) else {
            return call.refused(0);
        };
        let before: usize = bank.records[..at].iter().map(size).sum();
        let found = &bank.records[at];
        let name = found.key.len() + 1;
        let place = self.active * PART + HEADER + before + RECORD + name;
        call.found(place, &found.value)
    }
}

impl Bank {
    /// There is room in the work area for the record that an insert of this value appends.
    pub fn has_room(&self, call: &Call, value: &[u8]) -> bool {
        self.total() + size(&fresh(call, value)) <= PART
    }

    fn kill(&mut self, call: &Call) {
        let live = self.records.iter_mut().filter(|r| matches(r, call));
        live.for_each(|record| record.state = DEAD);
    }
}

/// A live record of the call's key and type.
fn matches(record: &Record, call: &Call) -> bool {
    let system = record.guid == SYSTEM_GUID;
    record.state == LIVE && system == (call.typ != 0) && record.key == call.key
}

/// The record that an insert appends.
fn fresh(call: &Call, value: &[u8]) -> Record {
    Record {
        state: LIVE,
        reserved: 0,
        attributes: 0,
        guid: if call.typ == 0 { COMMON_GUID } else { SYSTEM_GUID },
        key: call.key.clone(),
        closing: 0,
        value: value.to_vec(),
    }
}

#[cfg(test)]
mod tests {
    use super::*;
    use image::{Header, BANK};

    /// A bank with two live records of one key, behind what is before it.
    fn opened(before: &[u8], generation: u32) -> Book {
        let header = Header::new(BANK as u32, generation);
        let records = [Record::live(b"k", b"v"), Record::live(b"k", b"w")];
        let image = [before, &image::bank(&header, &records)].concat();
        Book::open(&image, image.len() / BANK * PART).unwrap()
    }

    #[test]
    fn edits_do_as_said() {
        let mut book = opened(&[], 1);
        let call = |what| Call::new(what, b"k", 1);
        let place = 24 + 36 + 2;
        let lookup = call(What::Lookup);
        assert_eq!(book.answer(&lookup), Answer::Lookup(0, [1, place, 1]));
        let room = PART - 24 - 2 * 39;
        let insert = |len| Call::insert(b"k", &vec![0; len], 1);
        assert_eq!(book.answer(&insert(room - 37)), Answer::Number(8));
        assert_eq!(book.answer(&insert(room - 38)), Answer::Number(0));
        let place = place + 2 * 39;
        assert_eq!(book.answer(&lookup), Answer::Lookup(0, [1, place, (room - 38) as u64]));
        assert_eq!(book.state().entries[0].total as usize, PART);
        book.answer(&call(What::Remove));
        assert_eq!(book.answer(&lookup), Answer::Lookup(0, [0; 3]));
        let states = book.active_bank().unwrap().records.iter().map(|r| r.state);
        assert_eq!(states.collect::<Vec<_>>(), [DEAD; 3]);
        let mut other = opened(&[0xFF; BANK], 0);
        assert_eq!(other.answer(&lookup), Answer::Lookup(7, [0; 3]));
    }

    #[test]
    fn a_barrel_insert_is_the_clocks_but_for_long_values() {
        let barrel = |len| Call::barrel(b"k", &vec![0; len], 1);
        let insert = |len| Call::insert(b"k", &vec![0; len], 1);
        let mut both = [opened(&[], 1), opened(&[], 1)];
        for len in [0, 511, 512] {
            let answers = [both[0].answer(&barrel(len)), both[1].answer(&insert(len))];
            assert_eq!(answers, [Answer::Number(0), Answer::Number(0)]);
            assert_eq!(both[0], both[1]);
        }
        let [book, before] = &mut both;
        assert_eq!(book.answer(&barrel(513)), Answer::Number(15));
        assert_eq!(book, before);
        assert_eq!(book.answer(&insert(513)), Answer::Number(0));
        let mut other = opened(&[0xFF; BANK], 0);
        assert_eq!(other.answer(&barrel(513)), Answer::Number(7));
    }

    #[test]
    fn a_long_barrel_value_is_refused_before_a_full_work_area() {
        let mut book = opened(&[], 1);
        // What is left is room for a value of 512 bytes, less one.
        let left = RECORD + 2 + 512 - 1;
        let filling = PART - 24 - 2 * 39 - RECORD - 2 - left;
        let numbers = [
            (Call::insert(b"f", &vec![0; filling], 1), 0),
            (Call::barrel(b"k", &[0; 513], 1), 15),
            (Call::barrel(b"k", &[0; 512], 1), 8),
            (Call::insert(b"k", &[0; 513], 1), 8),
            (Call::barrel(b"k", &[0; 511], 1), 0),
            (Call::barrel(b"k", &[0; 513], 1), 15),
            (Call::barrel(b"k", b"", 1), 8),
        ];
        for (call, number) in numbers {
            assert_eq!(book.answer(&call), Answer::Number(number), "{call}");
        }
    }
}
