//! 01's domain of equality: what the Rust may be asked.

use image::BANK;

use super::input::Run;
use crate::partition::model;
use crate::store::book::Book;
use crate::store::lent::call::Answer;
use crate::store::lent::Standing;

/// The Rust may be asked: no bank is outside the domain, and neither is the refusal. A
/// memory checker is to watch the port alone; it takes fault at the Rust's `vec!`.
pub fn comparable(run: &Run, opened: &Result<Book, u32>) -> bool {
    let asked = matches!(opened, Ok(_) | Err(1 | 4)) && run.standing != Standing::Alone;
    asked && inside(&run.image)
}

/// No bank of it is outside the domain.
pub fn inside(image: &[u8]) -> bool {
    let mut banks = image.chunks_exact(BANK);
    banks.all(|b| model::read(b).outside.is_none())
}

/// The Rust may be asked for what 01 answers this to; a careful 12 is its own 12 too, and an
/// accepted barrel insert its own insert. What it does instead, where it may not be asked, is in
/// docs/DIFFERENCES.md.
pub fn within(book: &Book, said: &Answer) -> bool {
    let bank = book.active_bank();
    match said {
        Answer::Number(number)
        | Answer::Lookup(number, _)
        | Answer::Figures(number, _)
        | Answer::Whole(number, ..) => *number == 0,
        Answer::Value(..) => bank.is_some(),
        Answer::Commit(12, ..) => bank.is_some_and(|b| b.header.size as usize == BANK),
        Answer::Commit(number, ..) => matches!(number, 0 | 9 | 10),
        Answer::Tally(..) => false,
    }
}
