//! The store on a lent work area, in ordinary types.

use core::ops::Range;

use crate::commit::{self, Commit, NotCommitted};
use crate::figures::{self, Figures};
use crate::lent;
use crate::refusal::Refusal;
use crate::state::{self, Entry, STATE_ACTIVE, STATE_BANKS};
use crate::tally::{self, Caller, Tally};
use crate::STATE_SIZE;

/// The type of a variable. One key may have a value of each.
#[derive(Clone, Copy, Debug, Eq, PartialEq)]
pub enum VarType {
    /// Counts in the header's common limit.
    Common,
    /// Counts in the header's system limit.
    System,
}

impl VarType {
    /// As the calls of [`lent`] take it.
    pub fn number(self) -> u32 {
        match self {
            VarType::Common => 0,
            VarType::System => 1,
        }
    }
}

/// An opened image: a state, and the lent work area.
///
/// Neither is anyone else's until the store is dropped, so no call refuses by
/// [`NotSound`](Refusal::NotSound). A refusal changes nothing, but for [`NotCommitted::Moved`].
pub struct Store<'a> {
    state: [u8; STATE_SIZE],
    work: &'a mut [u8],
}

impl<'a> Store<'a> {
    /// Opens an image of 1 to 16 banks of 65,536 bytes; a last part of a bank is ignored. `work`
    /// has [`PART_SIZE`](crate::PART_SIZE) bytes for each bank; later bytes stay as they are.
    ///
    /// The active bank of an opened store may be one that is not Valid, where every Valid bank
    /// has generation 0: then edits, lookups, figures and commits are refused by
    /// [`NotValid`](Refusal::NotValid).
    ///
    /// Refusals: ImageShort, ImageLong, WorkShort, NoValid, in this order.
    pub fn open(image: &[u8], work: &'a mut [u8]) -> Result<Store<'a>, Refusal> {
        let mut state = [0; STATE_SIZE];
        Refusal::check(lent::open(image, &mut state, work))?;
        Ok(Store { state, work })
    }

    /// Puts a value under a key of a type into the active bank, in place of every live one of that
    /// key and type. It is in the flash only when a commit was carried out.
    ///
    /// A key is any bytes, without the closing byte that a record has behind it. The record takes
    /// 37 bytes, and the key and the value: whole records, not values, count in the header's
    /// limits.
    ///
    /// Refusals: NotValid, Full.
    pub fn insert(&mut self, key: &[u8], value: &[u8], typ: VarType) -> Result<(), Refusal> {
        let number = lent::insert(&mut self.state, self.work, key, value, typ.number());
        Refusal::check(number)
    }

    /// The insert of the chime barrels, whose controller has 512 bytes for a value
    /// ([`BARREL_VALUE_MAX`](crate::BARREL_VALUE_MAX)): [`insert`](Store::insert), but that a longer
    /// value is refused. A record does not say whose insert put it there: either insert takes the
    /// place of the other's values, and [`remove`](Store::remove) removes both.
    ///
    /// Refusals: NotValid, ValueLong, Full, in this order.
    pub fn barrel_insert(&mut self, key: &[u8], value: &[u8], typ: VarType) -> Result<(), Refusal> {
        let number = lent::barrel_insert(&mut self.state, self.work, key, value, typ.number());
        Refusal::check(number)
    }

    /// Removes every live value of a key and a type from the active bank; where there is none,
    /// nothing changes.
    ///
    /// Refusal: NotValid.
    pub fn remove(&mut self, key: &[u8], typ: VarType) -> Result<(), Refusal> {
        Refusal::check(lent::remove(&self.state, self.work, key, typ.number()))
    }

    /// The value of a key and a type in the active bank, if there is one.
    ///
    /// Refusal: NotValid.
    pub fn get(&self, key: &[u8], typ: VarType) -> Result<Option<&[u8]>, Refusal> {
        let place = self.find(key, typ)?;
        Ok(place.map(|range| &self.work[range]))
    }

    /// Where in the work area that value is.
    ///
    /// Refusal: NotValid.
    pub fn find(&self, key: &[u8], typ: VarType) -> Result<Option<Range<usize>>, Refusal> {
        let mut found = [u64::MAX; 3];
        let number = lent::lookup(&self.state, self.work, key, typ.number(), &mut found);
        Refusal::check(number)?;
        Ok(place(found))
    }

    /// Copies that value to the front of `out`, as far as `out` goes, and answers the value's
    /// length, which may be more than `out` has. 0, and `out` as it was, where there is no such
    /// value or the lookup is refused; [`get`](Store::get) tells these from an empty value.
    pub fn value(&self, key: &[u8], typ: VarType, out: &mut [u8]) -> usize {
        lent::value(&self.state, self.work, key, typ.number(), out)
    }

    /// What the active bank's records come to: both sums that a commit holds against the header's
    /// limits, and how many records there are.
    ///
    /// Refusal: NotValid.
    pub fn figures(&self) -> Result<Figures, Refusal> {
        let mut figures = [u64::MAX; 3];
        Refusal::check(lent::figures(&self.state, self.work, &mut figures))?;
        Ok(figures::told(figures))
    }

    /// The commit that a new board should call. Whatever it refuses, it asks for nothing and leaves
    /// everything as it was.
    ///
    /// Answers what to do to the flash so that it holds the active bank; the bytes to write are at
    /// the front of `output`, which has at least [`BANK_SIZE`](crate::BANK_SIZE). Where the bank is
    /// full it moves to the next one, its live values only, and that one becomes active.
    ///
    /// Erase first, then write: to the flash that was opened, and nothing else. Where the erase or
    /// the write fails, open the flash again: the store takes both as done.
    ///
    /// An erase request counts in the [`tally`](Store::tally) of `caller`, who commits. Nothing else
    /// depends on it.
    ///
    /// Refusals: OutputShort, NotValid, SystemLimit, CommonLimit, LastMove, MovedOver, in this
    /// order. MovedOver is where the bank has to move, and header and live records are over its
    /// size: remove some, and commit again.
    ///
    /// POWER CUTS. Written from the first byte to the last, a commit that is cut off may lose what
    /// was stored: include/feqyondil.h at feqyondil_careful_commit, and docs/USING.md.
    pub fn careful_commit<'o>(
        &mut self,
        caller: Caller,
        output: &'o mut [u8],
    ) -> Result<Commit<'o>, Refusal> {
        let (mut requests, caller) = ([u64::MAX; 4], caller.number());
        let state = &mut self.state;
        let number = lent::careful_commit(state, self.work, output, caller, &mut requests);
        commit::told_carefully(number, requests, output)
    }

    /// The older commit, for boards that call it already. What
    /// [`careful_commit`](Store::careful_commit) accepts it accepts too, with the same bytes, the
    /// same tallies and the same power cuts; but it moves before it knows whether the live records
    /// fit.
    ///
    /// Refusals: OutputShort, NotValid, SystemLimit, CommonLimit, LastMove, in this order. Last
    /// MovedOver, as [`NotCommitted::Moved`]: the erase that it asks for has counted; leave the flash
    /// alone, without that erase, and open it again.
    pub fn commit<'o>(
        &mut self,
        caller: Caller,
        output: &'o mut [u8],
    ) -> Result<Commit<'o>, NotCommitted> {
        let (mut requests, caller) = ([u64::MAX; 4], caller.number());
        let number = lent::commit(&mut self.state, self.work, output, caller, &mut requests);
        commit::told(number, requests, output)
    }

    /// Joins the Valid banks, each at its own size, at the front of `output`, which has at least
    /// [`BANK_SIZE`](crate::BANK_SIZE) bytes per bank.
    ///
    /// That is no copy of the flash: banks that aren't Valid are left out, and so are the bytes
    /// behind a bank's size. The bank that a move left is over its size, if that was why it moved:
    /// then this is refused by BankOver until the flash is opened again.
    ///
    /// Refusals: OutputShort, BankOver.
    pub fn whole_image<'o>(&self, output: &'o mut [u8]) -> Result<&'o [u8], Refusal> {
        let mut length = [u64::MAX];
        let number = lent::whole_image(&self.state, self.work, output, &mut length);
        Refusal::check(number)?;
        match output.get(..length[0] as usize) {
            Some(bytes) => Ok(bytes),
            None => panic!("the library answered {length:?}"),
        }
    }

    /// The number of banks.
    pub fn banks(&self) -> usize {
        state::number(&self.state, STATE_BANKS) as usize
    }

    /// The active bank, counted from 0.
    pub fn active(&self) -> usize {
        state::number(&self.state, STATE_ACTIVE) as usize
    }

    /// Whose commits wear the flash: erase requests since the opening, by caller and in all.
    pub fn tally(&self) -> Tally {
        let mut tally = [u64::MAX; 3];
        let number = lent::tally(&self.state, &mut tally);
        tally::told(number, tally)
    }

    /// What bank `i` is; `None` where there are no more than `i`.
    pub fn bank(&self, i: usize) -> Option<Entry> {
        (i < self.banks()).then(|| state::entry(&self.state, i))
    }

    /// The state's bytes, as C has them.
    pub fn state(&self) -> &[u8; STATE_SIZE] {
        &self.state
    }

    /// The work area, all that was lent: a part for each bank, and later bytes.
    pub fn work(&self) -> &[u8] {
        self.work
    }
}

/// What a lookup found. An answer that the library does not promise ends the program.
pub(crate) fn place(found: [u64; 3]) -> Option<Range<usize>> {
    match found {
        [0, 0, 0] => None,
        [1, place, length] => Some(place as usize..(place + length) as usize),
        _ => panic!("the library answered {found:?}"),
    }
}

#[cfg(test)]
mod tests;
