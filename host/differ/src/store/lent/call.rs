//! The calls of a run, and what is answered to them.

mod words;

use image::hex;

/// What the room for a value, or an output, holds before a call.
pub const ROOM: u8 = 0xA5;
/// What a commit asks: whether to erase and where, where to write and how many bytes.
pub type Asked = [u64; 4];
pub const NO_REQUEST: Asked = [0; 4];
/// What careful commits and barrel inserts are called.
pub const CAREFUL: &str = "careful commits";
pub const BARREL: &str = "barrel inserts";

/// A call on an opened store.
#[derive(Clone, Debug, PartialEq)]
pub struct Call {
    pub what: What,
    /// Of the variable; none in the figures, a commit, a whole image or the tallies.
    pub key: Vec<u8>,
    /// 0 for Common, any other number for System.
    pub typ: u32,
}

#[derive(Clone, Debug, PartialEq)]
pub enum What {
    /// With the value.
    Insert(Manner, Vec<u8>),
    Remove,
    Lookup,
    /// With the room for the value.
    Value(usize),
    Figures,
    /// With the room for the output.
    Commit(Way, Caller, usize),
    /// The same.
    Whole(usize),
    Tally,
}

/// Which insert it is.
#[derive(Clone, Copy, Debug, PartialEq)]
pub enum Manner {
    /// The clock's, as 01 says.
    Plain,
    /// The barrels', as N5 says: refused with 15 where the value is too long.
    Barrel,
}

/// Which commit it is.
#[derive(Clone, Copy, Debug, PartialEq)]
pub enum Way {
    /// As 01 says: refused with 12, it has moved the bank.
    Old,
    /// As N4 says: refused with 12 before it moves.
    Careful,
}

/// Who commits, as N7 says: 0 is the clock, any other number the barrel.
#[derive(Clone, Copy, Debug, Eq, PartialEq)]
pub struct Caller(pub u32);

impl Caller {
    pub const CLOCK: Caller = Caller(0);
    pub const BARREL: Caller = Caller(1);
}

impl What {
    /// What its calls are called.
    pub fn name(&self) -> &'static str {
        match self {
            What::Insert(Manner::Plain, _) => "inserts",
            What::Insert(Manner::Barrel, _) => BARREL,
            What::Remove => "removes",
            What::Lookup => "lookups",
            What::Value(_) => "values",
            What::Figures => "figures",
            What::Commit(Way::Old, ..) => "commits",
            What::Commit(Way::Careful, ..) => CAREFUL,
            What::Whole(_) => "whole images",
            What::Tally => "tallies",
        }
    }
}

/// What a call answers.
#[derive(Clone, Debug, PartialEq)]
pub enum Answer {
    /// Of an insert or a remove.
    Number(u32),
    /// Of a lookup: the number; found, place and length.
    Lookup(u32, [u64; 3]),
    /// Of a value: its length, and the room after the call.
    Value(usize, Vec<u8>),
    /// Of the figures: the number; both sums and how many records.
    Figures(u32, [u64; 3]),
    /// Of a commit: the number, the requests, the output after the call.
    Commit(u32, Asked, Vec<u8>),
    /// Of a whole image: the number, the length, the output after the call.
    Whole(u32, u64, Vec<u8>),
    /// Of the tallies: the number; the clock's, the barrel's and the total.
    Tally(u32, [u64; 3]),
}

impl Call {
    pub fn new(what: What, key: &[u8], typ: u32) -> Self {
        let key = key.to_vec();
        Call { what, key, typ }
    }

    pub fn insert(key: &[u8], value: &[u8], typ: u32) -> Self {
        Call::new(What::Insert(Manner::Plain, value.to_vec()), key, typ)
    }

    pub fn barrel(key: &[u8], value: &[u8], typ: u32) -> Self {
        Call::new(What::Insert(Manner::Barrel, value.to_vec()), key, typ)
    }

    pub fn figures() -> Self {
        Call::new(What::Figures, b"", 0)
    }

    /// The clock's.
    pub fn commit(room: usize) -> Self {
        Call::new(What::Commit(Way::Old, Caller::CLOCK, room), b"", 0)
    }

    /// The same.
    pub fn careful(room: usize) -> Self {
        Call::new(What::Commit(Way::Careful, Caller::CLOCK, room), b"", 0)
    }

    /// The same commit of another caller.
    pub fn by(mut self, other: Caller) -> Self {
        if let What::Commit(_, caller, _) = &mut self.what {
            *caller = other;
        }
        self
    }

    pub fn whole(room: usize) -> Self {
        Call::new(What::Whole(room), b"", 0)
    }

    pub fn tally() -> Self {
        Call::new(What::Tally, b"", 0)
    }

    /// Neither a value nor anything else was found, or the call was refused.
    pub fn refused(&self, number: u32) -> Answer {
        match self.what {
            What::Insert(..) | What::Remove => Answer::Number(number),
            What::Lookup => Answer::Lookup(number, [0; 3]),
            What::Value(room) => Answer::Value(0, vec![ROOM; room]),
            What::Figures => Answer::Figures(number, [0; 3]),
            What::Commit(.., room) => Answer::Commit(number, NO_REQUEST, vec![ROOM; room]),
            What::Whole(room) => Answer::Whole(number, 0, vec![ROOM; room]),
            What::Tally => Answer::Tally(number, [0; 3]),
        }
    }

    /// State or work area may be new after this answer.
    pub fn changes(&self, answer: &Answer) -> bool {
        match (&self.what, answer) {
            (What::Commit(Way::Careful, ..), Answer::Commit(number, ..)) => *number == 0,
            _ => *answer == Answer::Number(0) || answer.requests().is_some(),
        }
    }

    /// Who commits, where this answer asks for an erase.
    pub fn erases(&self, answer: &Answer) -> Option<Caller> {
        match (&self.what, answer.requests()) {
            (What::Commit(_, caller, _), Some([1, ..])) => Some(*caller),
            _ => None,
        }
    }

    /// A value was found, at a place of the work area.
    pub fn found(&self, place: usize, value: &[u8]) -> Answer {
        match self.what {
            What::Value(room) => Answer::Value(value.len(), lent(room, value)),
            _ => Answer::Lookup(0, [1, place as u64, value.len() as u64]),
        }
    }
}

impl Answer {
    /// Of an accepted commit or one that is refused with 12; an old one has moved the bank then.
    pub fn requests(&self) -> Option<Asked> {
        match self {
            Answer::Commit(0 | 12, requests, _) => Some(*requests),
            _ => None,
        }
    }

    /// The bytes to be written, of an accepted commit.
    pub fn written(&self) -> Option<(usize, &[u8])> {
        match self {
            Answer::Commit(0, [_, _, offset, length], out) => {
                Some((*offset as usize, out.get(..*length as usize)?))
            }
            _ => None,
        }
    }

    fn room(&self) -> &[u8] {
        match self {
            Answer::Value(_, out) | Answer::Commit(_, _, out) | Answer::Whole(_, _, out) => out,
            _ => &[],
        }
    }

    pub fn room_mut(&mut self) -> Option<&mut Vec<u8>> {
        match self {
            Answer::Value(_, out) | Answer::Commit(_, _, out) | Answer::Whole(_, _, out) => {
                Some(out)
            }
            _ => None,
        }
    }
}

/// A room with these bytes at its front, as far as it reaches.
pub fn lent(room: usize, bytes: &[u8]) -> Vec<u8> {
    let mut out = vec![ROOM; room];
    let reach = room.min(bytes.len());
    out[..reach].copy_from_slice(&bytes[..reach]);
    out
}

/// Where two answers' rooms differ, for those of which the front is the same.
pub fn parting(said: &Answer, has: &Answer) -> String {
    let (said, has) = (said.room(), has.room());
    let Some(at) = said.iter().zip(has).position(|(a, b)| a != b) else {
        return String::new();
    };
    let (said, has) = (hex(&said[at..]), hex(&has[at..]));
    format!("\n  from {at} on, 01: {said}, port: {has}")
}

#[cfg(test)]
mod tests {
    use super::*;

    #[test]
    fn a_value_reaches_as_far_as_the_room() {
        let call = |room| Call::new(What::Value(room), b"k", 0);
        let answer = |room| call(room).found(7, b"abc");
        assert_eq!(answer(2), Answer::Value(3, b"ab".to_vec()));
        assert_eq!(answer(5), Answer::Value(3, b"abc\xA5\xA5".to_vec()));
        assert_eq!(call(1).refused(6), Answer::Value(0, vec![ROOM]));
        let lookup = Call::new(What::Lookup, b"k", 0);
        assert_eq!(lookup.found(7, b"abc"), Answer::Lookup(0, [1, 7, 3]));
        assert_eq!(lookup.refused(7), Answer::Lookup(7, [0; 3]));
    }

    #[test]
    fn an_output_is_told_where_it_differs() {
        let commit = Call::commit(70_000);
        let mut has = Answer::Commit(0, [0, 0, 0, 2], lent(70_000, b"ab"));
        let said = has.clone();
        assert_eq!(said.written(), Some((0, &b"ab"[..])));
        assert_eq!(parting(&said, &has), "");
        if let Answer::Commit(_, _, out) = &mut has {
            out[69_999] = 7;
        }
        let text = parting(&said, &has);
        assert!(text.contains("from 69999 on, 01: a5, port: 07"), "{text}");
        let refused = commit.refused(5);
        assert_eq!((refused.written(), refused.requests()), (None, None));
        assert!(!commit.changes(&refused) && commit.changes(&said));
    }

    #[test]
    fn only_an_old_12_changes_something() {
        let [old, careful] = [Call::commit(0), Call::careful(0)];
        let over = old.refused(12);
        assert_eq!(over, careful.refused(12));
        assert!(old.changes(&over) && !careful.changes(&over));
        assert!(careful.changes(&Answer::Commit(0, NO_REQUEST, vec![])));
    }
}
