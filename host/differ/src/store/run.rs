//! A run on every side: an opening and a list of calls, each followed by a look at the answer, the
//! state, the whole work area and, after commits, the flash.

mod callers;
pub mod counts;
mod demand;
pub mod domain;
pub mod flash;
mod input;
pub mod wear;
pub mod wrapper;

use super::book::{tally, Book, PART};
use super::lent::call::{parting, Answer, Call};
use super::lent::same::{same_state, same_tally, same_work};
use super::lent::state::{Tallies, STATE};
use super::lent::{Lent, Port};
use super::rust::Rust;
use callers::Erases;
use counts::{Counts, MOVES, RUST_CALLED, RUST_OPENED};
use demand::Watch;
use domain::{comparable, within};

pub use input::Run;

/// What state and work area hold before the opening.
const BEFORE: u8 = 0x5A;

/// Runs it on every side; the error is what each says where they differ.
pub fn compare(run: &Run, port: Port) -> Result<Counts, String> {
    let before = (vec![BEFORE; run.state], vec![BEFORE; run.work()]);
    let mut lent = Lent::new(port, run.standing, &before.0, &before.1);
    let mut sides = Sides::open(run, before);
    let number = lent.open(&run.image).map_err(at_opening)?;
    let said = sides.book.as_ref().err().copied().unwrap_or(0);
    if number != said {
        return Err(format!("at the opening\n  01:   {said}\n  port: {number}"));
    }
    sides.same(&lent).map_err(at_opening)?;
    same_tally(&tally::of_state(&sides.state), &mut lent).map_err(at_opening)?;
    sides.ask_rust(run).map_err(at_opening)?;
    sides.put(run.tallies, &mut lent);
    for (i, call) in run.calls.iter().enumerate() {
        let place = |fault| format!("at call {} ({call}){fault}", i + 1);
        sides.call(&mut lent, call).map_err(place)?;
    }
    sides.end()?;
    sides.counts.causes += lent.causes;
    Ok(sides.counts)
}

fn at_opening(fault: String) -> String {
    format!("at the opening: {fault}")
}

/// What state and work area are to be, and those who say so.
struct Sides<'a> {
    book: Result<Book, u32>,
    state: Vec<u8>,
    work: Vec<u8>,
    rust: Option<Rust<'a>>,
    watch: Watch,
    counts: Counts,
}

impl<'a> Sides<'a> {
    /// A refused opening leaves a state of zeros, one without room for a state leaves nothing.
    fn open(run: &Run, (mut state, mut work): (Vec<u8>, Vec<u8>)) -> Self {
        let book = run.opened();
        match &book {
            Ok(book) => {
                state[..STATE].copy_from_slice(&book.state().bytes());
                let said = book.work();
                work[..said.len()].copy_from_slice(&said);
            }
            Err(6) => {}
            Err(_) => state[..STATE].fill(0),
        }
        Sides {
            watch: Watch::new(&run.image, book.as_ref().map_or(0, |b| b.slots.len())),
            counts: Counts::opened(&book),
            rust: None,
            book,
            state,
            work,
        }
    }

    /// Has the Rust open the image too, where it may be asked.
    fn ask_rust(&mut self, run: &'a Run) -> Result<(), String> {
        if !comparable(run, &self.book) {
            return Ok(());
        }
        self.rust = Rust::open(&run.image).map_err(|fault| format!("\n  Rust: {fault}"))?;
        self.counts.add(RUST_OPENED, 1);
        match (&self.rust, &self.book) {
            (None, Err(_)) => Ok(()),
            (None, Ok(_)) => Err("\n  Rust: refused\n  01:   0".to_string()),
            (Some(_), Err(number)) => Err(format!("\n  Rust: opened\n  01:   {number}")),
            (Some(rust), Ok(book)) => whole_as_said(rust, book),
        }
    }

    /// Someone puts tallies into the state.
    fn put(&mut self, tallies: Tallies, lent: &mut Lent) {
        if let Ok(book) = &mut self.book {
            book.tallies = tallies;
            self.watch.erases = Erases::new(tallies);
            self.keep();
            lent.state.slice_mut().copy_from_slice(&self.state);
        }
    }

    fn call(&mut self, lent: &mut Lent, call: &Call) -> Result<(), String> {
        let (said, within) = match &mut self.book {
            Ok(book) => {
                let generation = book.generation();
                let said = book.answer(call);
                self.counts.add(MOVES, (book.generation() != generation).into());
                let within = within(book, &said);
                (said, within)
            }
            Err(_) => (call.refused(6), false),
        };
        let bank = self.book.as_ref().ok().and_then(Book::active_bank);
        self.counts.called(call, &said, bank);
        let changes = call.changes(&said);
        if changes {
            self.keep();
        }
        let rust = match &mut self.rust {
            Some(rust) if within => Some(rust.answer(call)),
            _ => None,
        };
        let port = lent.ask(call);
        let agrees = |side: &Result<Answer, String>| side.as_ref() == Ok(&said);
        if !agrees(&port) || !rust.as_ref().map_or(true, agrees) {
            let parting = port.as_ref().map_or(String::new(), |p| parting(&said, p));
            let rust = rust.map_or("not asked".to_string(), text);
            let port = text(port);
            return Err(format!("\n  Rust: {rust}\n  01:   {said}\n  port: {port}{parting}"));
        }
        self.same(lent)?;
        if rust.is_some() {
            self.rust_same(&said)?;
        } else if changes {
            // What the Rust was not asked has changed the book.
            self.rust = None;
        }
        self.watched(lent, call, port?, rust.transpose()?)
    }

    fn watched(
        &mut self,
        lent: &mut Lent,
        call: &Call,
        port: Answer,
        rust: Option<Answer>,
    ) -> Result<(), String> {
        let Ok(book) = &mut self.book else {
            return same_tally(&tally::of_state(&self.state), lent);
        };
        let (watch, counts) = (&mut self.watch, &mut self.counts);
        watch.called(call, &port, rust.as_ref(), (book, lent), counts)
    }

    /// After an accepted edit or a move the active bank's part and entry are new.
    fn keep(&mut self) {
        if let Ok(book) = &self.book {
            let at = book.active * PART;
            self.work[at..at + PART].copy_from_slice(&book.slots[book.active].part());
            self.state[..STATE].copy_from_slice(&book.state().bytes());
        }
    }

    /// The port's state and work area, every byte that was lent.
    fn same(&self, lent: &Lent) -> Result<(), String> {
        same_state(&self.state, lent.state.slice(), "port")?;
        same_work(&self.work, lent.work.slice(), "port")
    }

    /// The Rust's active bank after an edit or a commit, by its records.
    fn rust_same(&mut self, said: &Answer) -> Result<(), String> {
        let (Some(rust), Ok(book)) = (&mut self.rust, &self.book) else {
            return Ok(());
        };
        self.counts.add(RUST_CALLED, 1);
        if !matches!(said, Answer::Number(_) | Answer::Commit(..)) {
            return Ok(());
        }
        let at = book.active * PART;
        let has = rust.book(book.tallies)?;
        same_state(&book.state().bytes(), &has.state().bytes(), "Rust")?;
        same_work(&self.work[at..at + PART], &has.slots[has.active].part(), "Rust")
    }

    /// At the end the Rust's other banks too.
    fn end(&self) -> Result<(), String> {
        let (Some(rust), Ok(book)) = (&self.rust, &self.book) else {
            return Ok(());
        };
        whole_as_said(rust, book).map_err(|fault| format!("at the end: {fault}"))?;
        if rust.kept() {
            return Ok(());
        }
        Err("at the end: an edit changed more than records in the Rust".to_string())
    }
}

fn whole_as_said(rust: &Rust, book: &Book) -> Result<(), String> {
    let has = rust.book(book.tallies)?;
    same_state(&book.state().bytes(), &has.state().bytes(), "Rust")?;
    same_work(&book.work(), &has.work(), "Rust")
}

fn text(answer: Result<Answer, String>) -> String {
    answer.map_or_else(|fault| fault, |answer| answer.to_string())
}

#[cfg(test)]
mod tests {
    use super::super::book::Slot;
    use super::*;
    use image::{Header, Record};

    #[test]
    fn the_rust_is_held_against_the_book() {
        let image = image::bank(&Header::default(), &[Record::live(b"k", b"v")]);
        let rust = Rust::open(&image).unwrap().unwrap();
        let book = Book::open(&image, PART).unwrap();
        assert_eq!(whole_as_said(&rust, &book), Ok(()));
        let mut usable = book.clone();
        usable.active_bank_mut().unwrap().usable -= 1;
        assert!(whole_as_said(&rust, &usable).is_err());
        let mut attributes = book.clone();
        attributes.active_bank_mut().unwrap().records[0].attributes = 1;
        assert!(whole_as_said(&rust, &attributes).is_err());
        let mut more = book;
        more.slots.push(Slot::Empty);
        assert!(whole_as_said(&rust, &more).is_err());
    }
}
