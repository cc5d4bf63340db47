//! The wear of the flash, by 01, 'A run, its book and the flash', and by N4 of the change requests
//! (02): what must have been inserted between two erase requests for one bank.

use std::fmt::{self, Display, Formatter};

use image::BANK;

/// Two erase requests for a bank that the bound asks something of, by their inserted bytes first.
#[derive(Clone, Copy, Debug, PartialEq, Eq, PartialOrd, Ord)]
pub struct Pair {
    /// Between the two.
    pub inserted: u64,
    pub banks: u64,
    /// 01's S and L.
    pub size: u64,
    pub most: u64,
}

impl Pair {
    /// The fewest bytes that are to be inserted between the two.
    fn least(&self) -> u64 {
        self.banks * (self.size - self.most + 1)
    }
}

impl Display for Pair {
    fn fmt(&self, f: &mut Formatter) -> fmt::Result {
        let (inserted, least) = (self.inserted, self.least());
        write!(f, "n {}, S {}, L {}: ", self.banks, self.size, self.most)?;
        write!(f, "{inserted} bytes inserted between two erase requests ")?;
        write!(f, "for one bank, of at least {least}")
    }
}

/// Since the last erase request for a bank.
#[derive(Clone, Copy)]
struct Since {
    /// Bytes of the accepted inserts' records.
    inserted: u64,
    /// The most that header and live records came to at a commit; 01 calls it L.
    most: u64,
}

/// A commit, as the bound looks at it.
#[derive(Clone, Copy)]
pub struct Commit {
    pub accepted: bool,
    /// What header and live records of the active bank come to, and its size.
    pub live: usize,
    pub size: usize,
    /// The offset of the bank to erase.
    pub erase: Option<usize>,
}

/// Which commits L is over.
#[derive(Clone, Copy, Debug, PartialEq)]
pub enum Over {
    /// 01's: refused ones too.
    All,
    /// N4's.
    Accepted,
}

pub struct Wear {
    over: Over,
    banks: Vec<Option<Since>>,
}

impl Wear {
    pub fn new(n: usize, over: Over) -> Self {
        let banks = vec![None; n];
        Wear { over, banks }
    }

    /// After an accepted insert of a record of this size.
    pub fn inserted(&mut self, size: usize) {
        let banks = self.banks.iter_mut().flatten();
        banks.for_each(|since| since.inserted += size as u64);
    }

    /// After a commit, refused or not. Answers the pair of which the bound asked something.
    ///
    /// Only pairs without another request for the bank between them are looked at: the others
    /// ask for less and have more.
    pub fn committed(&mut self, commit: Commit) -> Result<Option<Pair>, String> {
        let live = commit.live as u64;
        let bank = commit.erase.map(|at| at / BANK);
        let before = bank.and_then(|i| self.banks[i]);
        let pair = before.map_or(Ok(None), |since| self.bound(since, commit.size as u64))?;
        if commit.accepted || self.over == Over::All {
            let banks = self.banks.iter_mut().flatten();
            banks.for_each(|since| since.most = since.most.max(live));
        }
        if let Some(i) = bank {
            self.banks[i] = Some(Since { inserted: 0, most: live });
        }
        Ok(pair)
    }

    fn bound(&self, since: Since, size: u64) -> Result<Option<Pair>, String> {
        let Since { inserted, most } = since;
        if most > size {
            return Ok(None);
        }
        let pair = Pair { inserted, banks: self.banks.len() as u64, size, most };
        if inserted >= pair.least() {
            return Ok(Some(pair));
        }
        Err(format!("\n  {pair}"))
    }
}

#[cfg(test)]
mod tests {
    use super::*;

    fn accepted(live: usize, size: usize, erase: Option<usize>) -> Commit {
        Commit { accepted: true, live, size, erase }
    }

    #[test]
    fn the_bound_is_01s_case() {
        // n 2, S 65,536, L 8,192: at least 114,690 bytes.
        let after = |over, inserted: usize| {
            let mut wear = Wear::new(2, over);
            wear.committed(accepted(8_192, BANK, Some(0))).unwrap();
            wear.inserted(inserted - 1);
            wear.committed(accepted(8_000, BANK, Some(BANK))).unwrap();
            wear.inserted(1);
            wear.committed(accepted(9_000, BANK, Some(0)))
        };
        for over in [Over::All, Over::Accepted] {
            assert_eq!(after(over, 114_690).map(|pair| pair.is_some()), Ok(true));
            let fault = after(over, 114_689).unwrap_err();
            assert!(fault.contains("L 8192: 114689 bytes inserted"), "{fault}");
            assert!(fault.ends_with("of at least 114690"), "{fault}");
        }
    }

    /// Two erase requests of a bank of size 200, so many bytes inserted between them, and a commit
    /// with so many live ones that is refused.
    fn with_refused(over: Over, inserted: usize, live: usize) -> Result<Option<Pair>, String> {
        let mut wear = Wear::new(1, over);
        wear.committed(accepted(100, 200, Some(0))).unwrap();
        wear.committed(Commit { accepted: false, ..accepted(live, 200, None) }).unwrap();
        wear.inserted(inserted);
        wear.committed(accepted(0, 200, Some(0)))
    }

    #[test]
    fn a_refused_commit_counts_and_an_overfull_bank_asks_nothing() {
        let after = |inserted, live| with_refused(Over::All, inserted, live);
        assert!(after(0, 200).is_err());
        assert_eq!(after(1, 200).map(|pair| pair.is_some()), Ok(true));
        assert_eq!(after(0, 201), Ok(None));
    }

    #[test]
    fn by_n4_a_refused_commit_does_not_count() {
        for live in [200, 201] {
            let after = |inserted| with_refused(Over::Accepted, inserted, live);
            let pair = Pair { inserted: 101, banks: 1, size: 200, most: 100 };
            assert_eq!(after(101), Ok(Some(pair)));
            assert!(after(100).is_err());
        }
    }
}
