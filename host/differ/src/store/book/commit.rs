//! The commits and the whole image by the words of the scope paper (01), 'A commit, from the entry
//! down', 'Edits and lookups' and 'Refusals', and of N4 and N7 of the change requests (02): written
//! from them and from neither side's code.

use image::{BANK, COMMON_GUID, SYSTEM_GUID};

use super::bank::{Bank, Slot};
use super::list::Book;
use crate::store::lent::call::{lent, Answer, Call, Caller, Way};

/// No generation comes after it.
const LAST: u32 = 4_294_967_295;

impl Book {
    /// What a commit answers that was lent this much output; one that moves changes the book.
    pub fn commit(&mut self, call: &Call, way: Way, caller: Caller, room: usize) -> Answer {
        if room < BANK {
            return call.refused(5);
        }
        let Some(bank) = self.active_bank() else {
            return call.refused(7);
        };
        let header = &bank.header;
        if bank.live_of(&SYSTEM_GUID) > header.system_limit as usize {
            return call.refused(9);
        }
        if bank.live_of(&COMMON_GUID) > header.common_limit as usize {
            return call.refused(10);
        }
        if bank.total() <= bank.usable {
            return self.written(room, None);
        }
        if header.generation == LAST {
            return call.refused(11);
        }
        if way == Way::Careful && bank.live() > header.size as usize {
            return call.refused(12);
        }
        let moved = bank.moved();
        let erase = self.move_on(moved);
        if erase.is_some() {
            self.tallies.count(caller);
        }
        self.written(room, erase)
    }

    /// The bank in the next slot, which becomes active; what is to be erased for it.
    fn move_on(&mut self, moved: Bank) -> Option<usize> {
        let next = (self.active + 1) % self.slots.len();
        let erase = (self.slots[next] != Slot::Empty).then_some(next * BANK);
        self.slots[next] = Slot::Valid(moved);
        self.active = next;
        erase
    }

    /// The active bank as it is to be written, unless it is over its size, as only a move leaves it.
    fn written(&self, room: usize, erase: Option<usize>) -> Answer {
        let asked = u64::from(erase.is_some());
        let at = erase.unwrap_or(0) as u64;
        let bank = self.active_bank().expect("a commit is refused with 7");
        match bank.output() {
            Some(bytes) => {
                let write = [(self.active * BANK) as u64, bytes.len() as u64];
                let requests = [asked, at, write[0], write[1]];
                Answer::Commit(0, requests, lent(room, &bytes))
            }
            None => Answer::Commit(12, [asked, at, 0, 0], lent(room, &[])),
        }
    }

    /// What a whole image answers that was lent this much output.
    pub fn whole(&self, call: &Call, room: usize) -> Answer {
        if room < self.slots.len() * BANK {
            return call.refused(5);
        }
        let valid = self.slots.iter().filter_map(|slot| match slot {
            Slot::Valid(bank) => Some(bank.output()),
            _ => None,
        });
        match valid.collect::<Option<Vec<_>>>() {
            Some(banks) => {
                let bytes = banks.concat();
                Answer::Whole(0, bytes.len() as u64, lent(room, &bytes))
            }
            None => call.refused(13),
        }
    }
}

impl Bank {
    /// What a move makes of it.
    fn moved(&self) -> Bank {
        let mut header = self.header.clone();
        header.generation += 1;
        Bank {
            usable: header.size as usize,
            header,
            records: self.live_records().cloned().collect(),
        }
    }

    /// Header, all records, and 0xFF up to the size; nothing where they are over it.
    fn output(&self) -> Option<Vec<u8>> {
        let size = self.header.size as usize;
        let mut out = self.bytes();
        (out.len() <= size).then(|| {
            out.resize(size, 0xFF);
            out
        })
    }
}

#[cfg(test)]
mod tests {
    use super::super::bank::PART;
    use super::*;
    use crate::store::lent::call::ROOM;
    use image::{Header, Record};

    /// A bank of this size and generation, with a live record of 39 bytes and a dead one.
    fn bank(size: u32, generation: u32) -> Vec<u8> {
        let header = Header::new(size, generation);
        let dead = Record { state: 0x7C, ..Record::live(b"d", b"d") };
        image::bank(&header, &[dead, Record::live(b"k", b"v")])
    }

    fn opened(banks: &[Vec<u8>]) -> Book {
        Book::open(&banks.concat(), banks.len() * PART).unwrap()
    }

    fn insert(book: &mut Book, len: usize, typ: u32) {
        let call = Call::insert(b"new", &vec![1; len], typ);
        assert_eq!(book.answer(&call), Answer::Number(0));
    }

    fn asked(book: &mut Book, call: &Call) -> (u32, [u64; 4]) {
        match book.answer(call) {
            Answer::Commit(number, requests, _) => (number, requests),
            other => panic!("{other}"),
        }
    }

    /// The clock's and the barrel's.
    fn tallies(book: &Book) -> [u32; 2] {
        [book.tallies.clock, book.tallies.barrel]
    }

    fn requests(book: &mut Book) -> (u32, [u64; 4]) {
        asked(book, &Call::commit(BANK))
    }

    /// The number by which either commit is refused that changes nothing and asks for nothing.
    fn refused(book: &mut Book) -> u32 {
        let before = book.clone();
        let [old, careful] = [Call::commit(BANK), Call::careful(BANK)].map(|c| asked(book, &c));
        assert_eq!((old, &*book), (careful, &before));
        assert_eq!(old.1, [0; 4]);
        old.0
    }

    #[test]
    fn a_bank_stays_until_it_is_full() {
        let mut book = opened(&[bank(200, 5), bank(200, 4), vec![0xFF; BANK]]);
        assert_eq!(requests(&mut book), (0, [0, 0, 0, 200]));
        insert(&mut book, 200 - 24 - 2 * 39 - 40, 1);
        assert_eq!(requests(&mut book), (0, [0, 0, 0, 200]));
        insert(&mut book, 0, 1);
        assert_eq!(requests(&mut book), (0, [1, 65_536, 65_536, 200]));
        assert_eq!((book.active, tallies(&book)), (1, [1, 0]));
        let at = |i: usize| book.state().entries[i];
        assert_eq!((at(0).total, at(1).total, at(1).usable), (240, 103, 200));
        insert(&mut book, 90, 1);
        // The third slot is Empty, so nothing is to be erased.
        assert_eq!(requests(&mut book), (0, [0, 0, 131_072, 200]));
        assert_eq!((book.active, tallies(&book)), (2, [1, 0]));
        insert(&mut book, 80, 1);
        let barrel = Call::careful(BANK).by(Caller::BARREL);
        assert_eq!(asked(&mut book, &barrel), (0, [1, 0, 0, 200]));
        assert_eq!(tallies(&book), [1, 1]);
        assert_eq!(book.active_bank().unwrap().header.generation, 8);
    }

    #[test]
    fn refusals_come_in_order() {
        let mut book = opened(&[bank(200, u32::MAX)]);
        for short in [Call::commit(BANK - 1), Call::careful(BANK - 1)] {
            assert_eq!(book.answer(&short), short.refused(5));
        }
        insert(&mut book, 8150, 1);
        insert(&mut book, 8153, 0);
        assert_eq!(refused(&mut book), 9);
        insert(&mut book, 8113, 1);
        assert_eq!(refused(&mut book), 10);
        insert(&mut book, 8152, 0);
        assert_eq!(refused(&mut book), 11);
        book.active_bank_mut().unwrap().header.generation = 1;
        let barrel = Call::commit(BANK).by(Caller::BARREL);
        assert_eq!(asked(&mut book, &barrel), (12, [1, 0, 0, 0]));
        assert_eq!((tallies(&book), book.state().entries[0].total), ([0, 1], 16_408));
        let whole = Call::whole(BANK);
        assert_eq!(book.answer(&whole), whole.refused(13));
        let mut other = opened(&[vec![0; BANK], bank(200, 0)]);
        assert_eq!(refused(&mut other), 7);
    }

    #[test]
    fn a_careful_commit_is_refused_before_it_moves() {
        let careful = Call::careful(BANK);
        let mut book = opened(&[bank(200, 5), bank(200, 4)]);
        // What is left beside the header, the live record and the new one's 40 bytes.
        let left = 200 - 24 - 39 - 40;
        insert(&mut book, left + 1, 1);
        let before = book.clone();
        assert_eq!(asked(&mut book, &careful), (12, [0; 4]));
        assert_eq!(book, before);
        insert(&mut book, left, 1);
        assert_eq!(asked(&mut book, &careful), (0, [1, 65_536, 65_536, 200]));
        assert_eq!((book.active, tallies(&book), book.state().entries[1].total), (1, [1, 0], 200));
    }

    #[test]
    fn the_valid_banks_are_joined() {
        let mut book = opened(&[bank(200, 1), vec![0; BANK], bank(300, 1)]);
        let short = Call::whole(3 * BANK - 1);
        assert_eq!(book.answer(&short), short.refused(5));
        let Answer::Whole(0, 500, out) = book.answer(&Call::whole(3 * BANK)) else {
            panic!("500 bytes");
        };
        assert_eq!(out[..102], bank(200, 1)[..102]);
        assert_eq!((out[199], &out[200..204]), (0xFF, &b"3VVN"[..]));
        assert!(out[500..].iter().all(|&b| b == ROOM));
    }
}
