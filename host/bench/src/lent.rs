//! The port's calls, which answer 1 if they did it; edits are undone after each.

use feqyondil::state::{ENTRY_SIZE, ENTRY_TOTAL, ENTRY_USABLE, STATE_ACTIVE, STATE_ENTRIES};
use feqyondil::{Caller, PART_SIZE, STATE_SIZE};
use image::{number, put_number, Record, BANK, RECORD};

/// Which commit of the port it is.
pub const OLD: bool = false;
pub const CAREFUL: bool = true;
/// Which insert.
pub const PLAIN: bool = false;
pub const BARREL: bool = true;
/// What an insert puts in the place of the last record's value.
pub const VALUE: &[u8] = b"another value of 19";

/// State and work area, lent to the port call after call.
pub struct Lent {
    pub state: [u8; STATE_SIZE],
    pub work: Vec<u8>,
    /// For a commit or a whole image.
    pub output: Vec<u8>,
    /// Bytes of the active bank's last record, and where it ends.
    last: usize,
    end: usize,
}

impl Lent {
    pub fn new(banks: usize, last: &Record) -> Self {
        Lent {
            state: [0; STATE_SIZE],
            work: vec![0; banks * PART_SIZE],
            output: vec![0; banks * BANK],
            last: last.bytes().len(),
            end: 0,
        }
    }

    pub fn open(&mut self, image: &[u8]) -> u32 {
        let answer = feqyondil::lent::open(image, &mut self.state, &mut self.work);
        self.end = self.active() * PART_SIZE + self.total();
        u32::from(answer == 0)
    }

    pub fn active(&self) -> usize {
        number(&self.state, STATE_ACTIVE) as usize
    }

    /// Of the active bank.
    pub fn total(&self) -> usize {
        number(&self.state, self.entry() + ENTRY_TOTAL) as usize
    }

    fn entry(&self) -> usize {
        STATE_ENTRIES + ENTRY_SIZE * self.active()
    }

    /// Answers the value's place, which is not 0.
    pub fn lookup(&self, key: &[u8]) -> u32 {
        let mut out = [0; 3];
        feqyondil::lent::lookup(&self.state, &self.work, key, 1, &mut out);
        out[1] as u32
    }

    /// Answers the number of records, which is not 0.
    pub fn figures(&self, _: &[u8]) -> u32 {
        let mut out = [0; 3];
        feqyondil::lent::figures(&self.state, &self.work, &mut out);
        out[2] as u32
    }

    /// Inserts over the last record, commits if `COMMIT`, and takes the insert back.
    pub fn insert<const MANNER: bool, const COMMIT: bool>(&mut self, key: &[u8]) -> u32 {
        let before = self.state;
        let insert = match MANNER {
            PLAIN => feqyondil::lent::insert,
            BARREL => feqyondil::lent::barrel_insert,
        };
        insert(&mut self.state, &mut self.work, key, VALUE, 1);
        let done = if COMMIT { self.commit::<OLD>(key) } else { 1 };
        let len = RECORD + key.len() + 1 + VALUE.len();
        self.work[self.end..self.end + len].fill(0xFF);
        self.state = before;
        done & self.revive()
    }

    pub fn remove(&mut self, key: &[u8]) -> u32 {
        feqyondil::lent::remove(&self.state, &mut self.work, key, 1);
        self.revive()
    }

    pub fn commit<const WAY: bool>(&mut self, _: &[u8]) -> u32 {
        let commit = match WAY {
            OLD => feqyondil::lent::commit,
            CAREFUL => feqyondil::lent::careful_commit,
        };
        let (state, work, caller) = (&mut self.state, &mut self.work, Caller::Clock.number());
        u32::from(commit(state, work, &mut self.output, caller, &mut [0; 4]) == 0)
    }

    /// With one byte less usable than there are records, which makes the bank move.
    pub fn commit_moved<const WAY: bool>(&mut self, key: &[u8]) -> u32 {
        let (usable, total) = (self.entry() + ENTRY_USABLE, self.total());
        put_number(&mut self.state, usable, total as u32 - 1);
        self.commit::<WAY>(key)
    }

    pub fn whole(&mut self, _: &[u8]) -> u32 {
        let mut length = [0];
        feqyondil::lent::whole_image(&self.state, &self.work, &mut self.output, &mut length);
        u32::from(length[0] == self.output.len() as u64)
    }

    fn revive(&mut self) -> u32 {
        let state = &mut self.work[self.end - self.last + 2];
        u32::from(std::mem::replace(state, 0x7F) == 0x7C)
    }
}
