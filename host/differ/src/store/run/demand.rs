//! What demand 3 says of the flash and of its wear, looked at as a run goes. By 01 no old commit is
//! refused with 12, and L is over all commits; by N4 of the change requests (02) every commit is
//! careful, and L is over the accepted ones. Both bounds are looked at in every run of 01's, since
//! N4's is proved there too. By N5 barrel inserts that are accepted add to the bytes of both. By N7
//! each caller's tally is the number of erase requests in its own commits.

use image::RECORD;

use super::callers::Erases;
use super::counts::{Counts, ACCEPTED_PAIRS, AFTER_12, PAIRS, REOPENED, RUST_REOPENED};
use super::flash::{erase, reopen, reopen_rust, Flash};
use super::wear::{Commit, Over, Wear};
use crate::store::book::{Bank, Book};
use crate::store::lent::call::{Answer, Call, Way, What};
use crate::store::lent::same::same_tally;
use crate::store::lent::state::State;
use crate::store::lent::Lent;

pub struct Watch {
    /// As the port's answers make it, and as the Rust's do.
    port: Flash,
    rust: Flash,
    wears: [Wear; 2],
    pub erases: Erases,
    /// The last commit was a careful one that was refused with 12.
    over: bool,
    /// An old commit was refused with 12: the demand speaks of no such run.
    ended: bool,
}

impl Watch {
    pub fn new(image: &[u8], n: usize) -> Self {
        Watch {
            port: Flash::new(image),
            rust: Flash::new(image),
            wears: [Over::All, Over::Accepted].map(|over| Wear::new(n, over)),
            erases: Erases::default(),
            over: false,
            ended: false,
        }
    }

    /// After a call on every side, whose answers are the book's.
    pub fn called(
        &mut self,
        call: &Call,
        port: &Answer,
        rust: Option<&Answer>,
        after: (&mut Book, &mut Lent),
        counts: &mut Counts,
    ) -> Result<(), String> {
        self.counted(call, port, after.1, counts)?;
        match &call.what {
            What::Insert(_, value) if call.changes(port) => {
                let size = RECORD + call.key.len() + 1 + value.len();
                self.wears.iter_mut().for_each(|wear| wear.inserted(size));
                Ok(())
            }
            What::Commit(way, ..) => {
                let over = matches!(port, Answer::Commit(12, ..));
                self.ended |= over && *way == Way::Old;
                counts.add(AFTER_12, (self.over && port.written().is_some()).into());
                self.over = over && *way == Way::Careful;
                self.committed(port, rust, after, counts)
            }
            _ => Ok(()),
        }
    }

    fn committed(
        &mut self,
        port: &Answer,
        rust: Option<&Answer>,
        (book, lent): (&mut Book, &mut Lent),
        counts: &mut Counts,
    ) -> Result<(), String> {
        let Some(bank) = book.active_bank().filter(|_| !self.ended) else {
            return Ok(());
        };
        self.worn(port, bank, counts)?;
        self.port.carry_out(port)?;
        if let Some(rust) = rust {
            self.rust.carry_out(rust)?;
        }
        if !self.erases.any() || port.written().is_none() {
            return Ok(());
        }
        counts.add(REOPENED, 1);
        let again = reopen(&self.port, book, lent)?;
        if rust.is_some() {
            let asked = reopen_rust(&self.rust, book, &again)?;
            counts.add(RUST_REOPENED, asked.into());
        }
        Ok(())
    }

    /// Both bounds after a commit, with the bank that is active then.
    fn worn(&mut self, port: &Answer, bank: &Bank, counts: &mut Counts) -> Result<(), String> {
        let commit = Commit {
            accepted: port.written().is_some(),
            live: bank.live(),
            size: bank.header.size as usize,
            erase: erase(port),
        };
        for (wear, name) in self.wears.iter_mut().zip([PAIRS, ACCEPTED_PAIRS]) {
            if let Some(pair) = wear.committed(commit)? {
                counts.add(name, 1);
                *counts += Counts { fewest: Some(pair), ..Counts::default() };
            }
        }
        Ok(())
    }

    /// After any call: each tally is the count of the erase requests answered to its caller, and the
    /// total that of all.
    fn counted(
        &mut self,
        call: &Call,
        port: &Answer,
        lent: &mut Lent,
        counts: &mut Counts,
    ) -> Result<(), String> {
        self.erases.called(call, port, counts);
        let requests = self.erases.told();
        let told = State::read(lent.state.slice()).map(|state| state.tallies);
        let [clock, barrel, _] = requests;
        if told.map(|told| [told.clock, told.barrel].map(u64::from)) != Some([clock, barrel]) {
            return Err(format!("\n  {requests:?} erase requests, {told:?}"));
        }
        same_tally(&Answer::Tally(0, requests), lent)
    }
}
