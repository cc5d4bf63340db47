//! Whether state and work area are some book's, by the words of refusal 6 in 01.

use image::{is_erased, BANK, HEADER};

use super::bank::{Bank, Slot, PART};
use super::list::Book;
use crate::partition::written;
use crate::store::lent::state::{Entry, State, EMPTY, ENTRIES, INVALID, VALID};

/// The book, or nothing where a call is to be refused with 6.
pub fn book(state: &[u8], work: &[u8]) -> Option<Book> {
    let state = State::read(state)?;
    let (n, active) = (state.n as usize, state.active as usize);
    let counts = (1..=ENTRIES).contains(&n) && active < n;
    let rest = state.entries.iter().skip(n);
    if !counts || work.len() < n * PART || rest.clone().any(|e| *e != Entry::default()) {
        return None;
    }
    let banks = state.entries.iter().zip(work.chunks_exact(PART)).take(n);
    let slots = banks.map(|(entry, part)| slot(entry, part));
    Some(Book { active, tallies: state.tallies, slots: slots.collect::<Option<_>>()? })
}

fn slot(entry: &Entry, part: &[u8]) -> Option<Slot> {
    let (total, usable) = (entry.total as usize, entry.usable as usize);
    let bare = (total, usable) == (0, 0) && is_erased(part);
    let slot = match entry.kind {
        EMPTY if bare => Slot::Empty,
        INVALID if bare => Slot::Invalid,
        // Fixed bytes, checksums, the records' ends and the 0xFF behind them are looked at here.
        VALID => Slot::Valid(written::read(part, total, usable).ok().filter(in_range)?),
        _ => return None,
    };
    Some(slot.owned())
}

fn in_range(bank: &Bank<&[u8]>) -> bool {
    let size = bank.header.size as usize;
    (HEADER..=BANK).contains(&size) && (HEADER..=size).contains(&bank.usable)
}

#[cfg(test)]
mod tests {
    use super::*;
    use crate::store::lent::state::Tallies;
    use image::{put_number, Header, Record};

    /// Two slots, the second Empty; the first has one record, and ends at 24 + 36 + 5 + 9.
    fn sound() -> (Vec<u8>, Vec<u8>) {
        let record = Record::live(b"rate", b"123456789");
        let image = [image::bank(&Header::default(), &[record]), vec![0xFF; BANK]].concat();
        let book = Book::open(&image, 2 * PART).unwrap();
        (book.state().bytes().to_vec(), book.work())
    }

    #[test]
    fn a_book_comes_back() {
        let (mut state, mut work) = sound();
        let back = book(&state, &work).unwrap();
        assert_eq!((&back.state().bytes()[..], back.work()), (&state[..], work.clone()));
        state.push(7);
        work.push(7);
        // The tallies are free.
        put_number(&mut state, 8, u32::MAX);
        put_number(&mut state, 12, 7);
        let tallies = Tallies { clock: u32::MAX, barrel: 7 };
        assert_eq!(book(&state, &work).unwrap().tallies, tallies);
    }

    #[test]
    fn each_number_of_the_state_matters() {
        for (at, wrong) in [
            (0, 0),       // n
            (4, 2),       // active
            (16, 0),      // kind of bank 0
            (16, 3),      // no kind
            (20, 73),     // total
            (20, 75),     // total
            (24, 23),     // usable
            (24, 65_537), // usable
            (32, 1),      // total of the Empty slot
            (28, 2),      // its kind
            (40, 1),      // an entry from n on
            (204, 1),     // the last number of all
        ] {
            let (mut state, work) = sound();
            put_number(&mut state, at, wrong);
            assert_eq!(book(&state, &work), None, "{wrong} at {at}");
        }
        let (mut state, work) = sound();
        put_number(&mut state, 0, 1); // a store of the first bank alone
        assert!(book(&state, &work).is_some());
    }

    #[test]
    fn each_fixed_byte_of_the_work_area_matters() {
        let last = 2 * PART - 1;
        for at in [0, 14, 15, 24, 27, 56, 64, 65, 73, 74, PART - 1, PART, last] {
            let (state, mut work) = sound();
            work[at] ^= 1;
            assert_eq!(book(&state, &work), None, "at {at}");
        }
        for at in [8, 12, 13, 16, 20, 26, 28, 40, 60] {
            let (state, mut work) = sound();
            work[at] ^= 1;
            assert!(book(&state, &work).is_some(), "at {at}");
        }
    }

    #[test]
    fn lengths_and_sizes_matter() {
        let (state, work) = sound();
        assert_eq!(book(&state[1..], &work), None);
        assert_eq!(book(&state, &work[1..]), None);
        for (size, right) in [(23, false), (24, true), (65_536, true), (65_537, false)] {
            let (mut state, mut work) = sound();
            put_number(&mut work, 4, size);
            put_number(&mut state, 24, 24);
            assert_eq!(book(&state, &work).is_some(), right, "size {size}");
        }
    }
}
