//! The flash by 01, 'A run, its book and the flash': what commits make of it, and how it reopens.

use std::collections::HashSet;

use image::BANK;

use super::domain::inside;
use crate::store::book::{Book, Slot, PART};
use crate::store::lent::call::{Answer, Call, What};
use crate::store::lent::same::{same_state, same_work};
use crate::store::lent::state::STATE;
use crate::store::lent::Lent;
use crate::store::rust::Rust;

/// Keys looked up at each end of a bank with more of them: every call goes through all banks.
const KEYS: usize = 3;

/// The opened image, and what was asked of it since.
#[derive(Clone)]
pub struct Flash {
    pub bytes: Vec<u8>,
}

impl Flash {
    pub fn new(image: &[u8]) -> Self {
        let bytes = image.to_vec();
        Flash { bytes }
    }

    /// An accepted commit's erase, which sets every bit of a bank, and its write, which leaves
    /// those set that are set in the output too.
    pub fn carry_out(&mut self, answer: &Answer) -> Result<(), String> {
        let Some((offset, bytes)) = answer.written() else {
            return Ok(());
        };
        if let Some(offset) = erase(answer) {
            self.part(offset, BANK)?.fill(0xFF);
        }
        let part = self.part(offset, bytes.len())?;
        part.iter_mut().zip(bytes).for_each(|(b, new)| *b &= new);
        Ok(())
    }

    fn part(&mut self, offset: usize, len: usize) -> Result<&mut [u8], String> {
        let part = self.bytes.get_mut(offset..offset + len);
        part.ok_or_else(|| format!("\n  {len} bytes at {offset} are not the flash's"))
    }
}

/// The offset of the bank that is to be erased.
pub fn erase(answer: &Answer) -> Option<usize> {
    match answer.requests() {
        Some([1, offset, ..]) => Some(offset as usize),
        _ => None,
    }
}

/// Opens the flash by the port: the active bank is the book's, and each key and type is looked up
/// with the answers that the store gives as the commit left it. Answers how 01 opens it.
pub fn reopen(flash: &Flash, book: &Book, left: &mut Lent) -> Result<Book, String> {
    let again = opened(flash, book)?;
    let work = vec![0; again.slots.len() * PART];
    let mut lent = Lent::new(left.port, left.standing, &[0; STATE], &work);
    let number = lent.open(&flash.bytes)?;
    left.causes += lent.causes;
    if number != 0 {
        return Err(format!("\n  the flash reopens with {number}"));
    }
    same_state(&again.state().bytes(), lent.state.slice(), "port")?;
    same_work(&again.work(), lent.work.slice(), "port")?;
    for call in lookups(book) {
        let said = book.lookup(&call);
        let (now, then) = (left.ask(&call)?, lent.ask(&call)?);
        if (&now, &then) != (&said, &said) {
            return Err(format!(
                "\n  {call}\n  01:       {said}\n  port:     {now}\n  reopened: {then}"
            ));
        }
    }
    Ok(again)
}

/// The same by the Rust, where it may be asked; whether it was. `again` is how 01 opens the flash.
pub fn reopen_rust(flash: &Flash, book: &Book, again: &Book) -> Result<bool, String> {
    if !inside(&flash.bytes) {
        return Ok(false);
    }
    let mut rust = Rust::reopen(&flash.bytes, again)?;
    let has = rust.book(book.tallies)?;
    same_work(&book.slots[book.active].part(), &has.slots[has.active].part(), "Rust")?;
    for call in lookups(book) {
        let (said, then) = (book.lookup(&call), rust.answer(&call)?);
        if then != said {
            return Err(format!("\n  {call}\n  01:            {said}\n  Rust reopened: {then}"));
        }
    }
    Ok(true)
}

/// The flash as 01 opens it; its active bank is to be the book's.
fn opened(flash: &Flash, book: &Book) -> Result<Book, String> {
    let said = Book::open(&flash.bytes, usize::MAX)
        .map_err(|number| format!("\n  by 01 the flash reopens with {number}"))?;
    let same = match (&said.slots[said.active], &book.slots[book.active]) {
        (Slot::Valid(has), Slot::Valid(is)) => {
            said.active == book.active && has.header == is.header && has.records == is.records
        }
        _ => false,
    };
    if same {
        return Ok(said);
    }
    let (has, is) = (said.state(), book.state());
    Err(format!(
        "\n  the flash reopens with another active bank\n  the book: {is}\n  reopened: {has}"
    ))
}

/// Both lookups of keys of the active bank and of one that is not there, of either type.
fn lookups(book: &Book) -> Vec<Call> {
    let records = book.active_bank().map_or(&[][..], |bank| &bank.records);
    let room = records.iter().map(|r| r.value.len()).max().unwrap_or(0) + 1;
    let mut seen = HashSet::new();
    let keys = records.iter().map(|r| &r.key[..]);
    let mut keys: Vec<&[u8]> = keys.filter(|key| seen.insert(*key)).collect();
    if keys.len() > 2 * KEYS {
        keys.drain(KEYS..keys.len() - KEYS);
    }
    keys.push(b"not there");
    let what = [What::Lookup, What::Value(room)];
    let both = |key| what.clone().map(|what| [0, 1].map(|typ| Call::new(what.clone(), key, typ)));
    keys.into_iter().flat_map(both).flatten().collect()
}

#[cfg(test)]
mod tests {
    use super::*;
    use crate::store::lent::{Port, Standing};
    use image::{Header, Record};

    /// A store of two banks of size 100 with one record, its book, and its flash.
    fn opened_store() -> (Lent, Book, Flash) {
        let records = [Record::live(b"k", b"v")];
        let bank = |generation| image::bank(&Header::new(100, generation), &records);
        let image = [bank(5), bank(4)].concat();
        let mut lent =
            Lent::new(Port::default(), Standing::Guarded(0), &[0; STATE], &vec![0; 2 * PART]);
        assert_eq!(lent.open(&image), Ok(0));
        let book = Book::open(&image, 2 * PART).unwrap();
        (lent, book, Flash::new(&image))
    }

    /// An insert that fills the bank with what is live, and a commit that moves it.
    fn moved(lent: &mut Lent, book: &mut Book, value: u8) -> Answer {
        let insert = Call::insert(b"k", &[value], 1);
        for call in [&insert, &insert] {
            assert_eq!(lent.ask(call).unwrap(), book.answer(call));
        }
        let commit = Call::commit(BANK);
        let done = lent.ask(&commit).unwrap();
        assert_eq!(done, book.answer(&commit));
        done
    }

    #[test]
    fn a_flash_without_the_erase_or_with_older_bytes_does_not_reopen() {
        let (mut lent, mut book, mut flash) = opened_store();
        let first = moved(&mut lent, &mut book, 0x0F);
        let mut not_erased = flash.clone();
        let Answer::Commit(0, [1, 65_536, offset, length], out) = first.clone() else {
            panic!("{first}");
        };
        let only = Answer::Commit(0, [0, 0, offset, length], out);
        not_erased.carry_out(&only).unwrap();
        assert!(reopen(&not_erased, &book, &mut lent).is_err());
        flash.carry_out(&first).unwrap();
        let again = reopen(&flash, &book, &mut lent).unwrap();
        assert_eq!(reopen_rust(&flash, &book, &again), Ok(true));
        let mut repeated = flash.clone();
        let second = moved(&mut lent, &mut book, 0xF0);
        flash.carry_out(&second).unwrap();
        let again = reopen(&flash, &book, &mut lent).unwrap();
        assert_eq!(reopen_rust(&flash, &book, &again), Ok(true));
        repeated.carry_out(&first).unwrap();
        assert!(reopen(&repeated, &book, &mut lent).is_err());
        assert!(reopen_rust(&repeated, &book, &again).is_err());
    }

    #[test]
    fn a_write_clears_bits_and_an_erase_sets_them() {
        let mut flash = Flash::new(&[0x0F; 2 * BANK]);
        let asked = |erase: [u64; 2], bytes: &[u8]| {
            let [asked, at] = erase;
            let requests = [asked, at, BANK as u64, bytes.len() as u64];
            Answer::Commit(0, requests, bytes.to_vec())
        };
        flash.carry_out(&asked([0, 0], &[0x3C, 0xFF])).unwrap();
        assert_eq!(flash.bytes[BANK..BANK + 3], [0x0C, 0x0F, 0x0F]);
        flash.carry_out(&asked([1, BANK as u64], &[0x3C])).unwrap();
        assert_eq!(flash.bytes[BANK - 1..BANK + 2], [0x0F, 0x3C, 0xFF]);
        let outside = asked([1, 2 * BANK as u64], &[]);
        assert!(flash.carry_out(&outside).is_err());
        let over = Answer::Commit(12, [1, 0, 0, 0], vec![]);
        flash.carry_out(&over).unwrap();
        assert_eq!((flash.bytes[0], erase(&over)), (0x0F, Some(0)));
    }
}
