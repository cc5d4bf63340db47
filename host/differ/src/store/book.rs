//! 01's store as a list of banks, with its opening, calls and refusals: written from the words of
//! the scope paper (01) and from neither side's code.

mod bank;
mod commit;
mod edit;
mod figures;
mod list;
pub mod sound;
pub mod tally;

use super::lent::call::{Answer, Call, What};

pub use bank::{Bank, Slot, LIVE, PART};
pub use list::Book;

impl Book {
    /// What a call answers; an accepted edit changes the active bank, a commit may move it.
    pub fn answer(&mut self, call: &Call) -> Answer {
        match call.what {
            What::Commit(way, caller, room) => self.commit(call, way, caller, room),
            What::Whole(room) => self.whole(call, room),
            What::Lookup | What::Value(_) => self.lookup(call),
            What::Figures => self.figures(call),
            What::Insert(..) | What::Remove => self.edit(call),
            What::Tally => self.tally(),
        }
    }
}
