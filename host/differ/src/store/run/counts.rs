//! How many runs and calls there were, and what became of them.

use std::collections::BTreeMap;
use std::fmt::{self, Display, Formatter};
use std::ops::AddAssign;

use super::wear::Pair;
use crate::partition::cause::Causes;
use crate::store::book::{Bank, Book};
use crate::store::lent::call::{Answer, Call, Manner, What, BARREL, CAREFUL};

pub const BANKS: &str = "banks";
/// Lookups and values that found something.
pub const FOUND: &str = "found";
/// Commits that moved the bank, old ones refused with 12 too.
pub const MOVES: &str = "moves";
/// Commits that were accepted right after a careful one that was refused with 12.
pub const AFTER_12: &str = "accepted after 12";
/// Barrel inserts on a Valid bank with values about the longest, and those refused with 15 where
/// the bank has no room for the record either.
pub const ABOUT_512: [(usize, &str); 3] = [
    (511, "barrel inserts of 511 bytes"),
    (512, "barrel inserts of 512 bytes"),
    (513, "barrel inserts of 513 bytes"),
];
pub const WITHOUT_ROOM: &str = "barrel inserts with 15 and without room";
pub const ERASES: &str = "erase requests";
/// Those in the clock's commits and in the barrel's, and runs with some in both.
pub const BY_CALLER: [&str; 2] = ["erase requests by the clock", "erase requests by the barrel"];
pub const BY_BOTH: &str = "runs with erase requests by both";
/// Those that a tally, or the total, does not count any more.
pub const PAST_STOP: &str = "erase requests past a tally's stop";
pub const PAST_TOTAL: &str = "erase requests past the total's stop";
/// Of erase requests for one bank, that 01's bound asks something of, and N4's.
pub const PAIRS: &str = "pairs of requests";
pub const ACCEPTED_PAIRS: &str = "pairs by accepted commits";
/// Of the flash by the port.
pub const REOPENED: &str = "reopenings";
/// What the Rust answered too.
pub const RUST_OPENED: &str = "openings as in the Rust";
pub const RUST_CALLED: &str = "calls as in the Rust";
pub const RUST_REOPENED: &str = "reopenings as in the Rust";

#[derive(Clone, Debug, Default, PartialEq)]
pub struct Counts {
    /// By their number; a value tells none, and is not among the calls here.
    pub openings: By<u32>,
    pub numbers: By<u32>,
    /// The same by their kind too.
    pub kinds: By<(&'static str, u32)>,
    /// Calls by their kind, and what is named above.
    pub others: By<&'static str>,
    /// Of the banks of every opening and reopening.
    pub causes: Causes,
    /// The pair with the fewest bytes inserted between.
    pub fewest: Option<Pair>,
}

/// So many of each.
#[derive(Clone, Debug, Default, PartialEq)]
pub struct By<K: Ord>(BTreeMap<K, u64>);

impl<K: Ord> By<K> {
    #[cfg(test)]
    pub fn of(&self, key: K) -> u64 {
        self.0.get(&key).copied().unwrap_or(0)
    }

    fn add(&mut self, key: K, more: u64) {
        *self.0.entry(key).or_default() += more;
    }

    fn add_all(&mut self, more: By<K>) {
        more.0.into_iter().for_each(|(key, more)| self.add(key, more));
    }

    fn all(&self) -> u64 {
        self.0.values().sum()
    }
}

impl By<u32> {
    /// The refusals among these numbers, in words.
    fn refused(&self) -> String {
        let refused = self.0.iter().filter(|(number, _)| **number > 0);
        refused.map(|(number, count)| format!(", {count} refused with {number}")).collect()
    }
}

impl Counts {
    pub fn opened(book: &Result<Book, u32>) -> Self {
        let mut counts = Counts::default();
        counts.openings.add(book.as_ref().err().copied().unwrap_or(0), 1);
        counts.add(BANKS, book.as_ref().map_or(0, |b| b.slots.len() as u64));
        counts
    }

    pub fn add(&mut self, name: &'static str, more: u64) {
        self.others.add(name, more);
    }

    /// Counts a call, with the active bank after it where that is Valid.
    pub fn called(&mut self, call: &Call, answer: &Answer, bank: Option<&Bank>) {
        self.add(call.what.name(), 1);
        let number = match *answer {
            Answer::Value(length, _) => {
                self.add(FOUND, u64::from(bank.is_some() && length > 0));
                return;
            }
            Answer::Lookup(number, [found, ..]) => {
                self.add(FOUND, found);
                number
            }
            Answer::Commit(number, [erases, ..], _) => {
                self.add(ERASES, erases);
                number
            }
            Answer::Number(number)
            | Answer::Figures(number, _)
            | Answer::Whole(number, ..)
            | Answer::Tally(number, _) => number,
        };
        self.numbers.add(number, 1);
        self.kinds.add((call.what.name(), number), 1);
        if let (What::Insert(Manner::Barrel, value), Some(bank)) = (&call.what, bank) {
            let about = ABOUT_512.iter().find(|(len, _)| *len == value.len());
            about.into_iter().for_each(|&(_, name)| self.add(name, 1));
            let without_room = number == 15 && !bank.has_room(call, value);
            self.add(WITHOUT_ROOM, without_room.into());
        }
    }

    /// The numbers of one kind of call.
    pub fn of_kind(&self, name: &str) -> By<u32> {
        let kinds = self.kinds.0.iter().filter(|((kind, _), _)| *kind == name);
        By(kinds.map(|((_, number), count)| (*number, *count)).collect())
    }

    pub fn runs(&self) -> u64 {
        self.openings.all()
    }
}

impl AddAssign for Counts {
    fn add_assign(&mut self, more: Counts) {
        self.openings.add_all(more.openings);
        self.numbers.add_all(more.numbers);
        self.kinds.add_all(more.kinds);
        self.others.add_all(more.others);
        self.causes += more.causes;
        self.fewest = self.fewest.into_iter().chain(more.fewest).min();
    }
}

impl Display for Counts {
    fn fmt(&self, f: &mut Formatter) -> fmt::Result {
        write!(f, "{} openings{}; ", self.runs(), self.openings.refused())?;
        write!(f, "{} calls with a number{}", self.numbers.all(), self.numbers.refused())?;
        for (name, count) in self.others.0.iter().filter(|(_, count)| **count > 0) {
            write!(f, "; {count} {name}")?;
            if [CAREFUL, BARREL].contains(name) {
                write!(f, "{}", self.of_kind(name).refused())?;
            }
        }
        let causes = self.causes.numbers().into_iter().filter(|(_, count)| *count > 0);
        let causes: Vec<String> = causes.map(|(name, count)| format!("{count} {name}")).collect();
        match causes.is_empty() {
            true => Ok(()),
            false => write!(f, "; causes: {}", causes.join(", ")),
        }
    }
}

#[cfg(test)]
mod tests {
    use super::*;
    use crate::store::book::PART;
    use image::Header;

    fn book() -> Book {
        Book::open(&image::bank(&Header::default(), &[]), PART).unwrap()
    }

    #[test]
    fn calls_are_counted_by_what_became_of_them() {
        let (mut counts, book) = (Counts::opened(&Err(4)), book());
        let lookup = Call::new(What::Lookup, b"", 0);
        counts.called(&lookup, &lookup.refused(6), None);
        counts.called(&lookup, &lookup.found(1, b"a"), book.active_bank());
        let careful = Call::careful(0);
        counts.called(&careful, &careful.refused(5), book.active_bank());
        let mut both = counts.clone();
        both += counts;
        let told = "2 openings, 2 refused with 4; 6 calls with a number, 2 refused with 5, \
                    2 refused with 6; 2 careful commits, 2 refused with 5; 2 found; 4 lookups";
        assert_eq!(both.to_string(), told);
    }

    #[test]
    fn barrel_inserts_are_counted_by_length_and_room() {
        let (mut counts, mut book) = (Counts::opened(&Ok(book())), book());
        let filling = Call::insert(b"", &vec![0; PART - 24 - 37 - 37 - 512], 0);
        let barrel = |len| Call::barrel(b"", &vec![0; len], 0);
        for call in [barrel(513), filling, barrel(513), barrel(512), barrel(511), barrel(1)] {
            let answer = book.answer(&call);
            counts.called(&call, &answer, book.active_bank());
        }
        counts.called(&barrel(513), &barrel(513).refused(6), None);
        let told = "1 openings; 7 calls with a number, 1 refused with 6, 2 refused with 8, \
                    2 refused with 15; 1 banks; 6 barrel inserts, 1 refused with 6, 2 refused with \
                    8, 2 refused with 15; 1 barrel inserts of 511 bytes; 1 barrel inserts of 512 \
                    bytes; 2 barrel inserts of 513 bytes; 1 barrel inserts with 15 and without \
                    room; 1 inserts";
        assert_eq!(counts.to_string(), told);
    }
}
