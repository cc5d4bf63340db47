//! What a commit asks of the flash, in ordinary types.

use core::fmt::{self, Display, Formatter};

use crate::refusal::Refusal;

/// An accepted commit. First the erase is to be carried out, if there is one, then the write.
#[derive(Clone, Copy, Debug, Eq, PartialEq)]
pub struct Commit<'o> {
    /// The offset of the bank to erase, all 65,536 bytes of it.
    pub erase: Option<usize>,
    /// Where in the flash the bytes go.
    pub offset: usize,
    /// What is to be written there: the front of the output that was lent.
    pub bytes: &'o [u8],
}

/// A refused [`commit`](crate::Store::commit). Refusal 12 is a case of its own, since it leaves the
/// store moved; a [`careful_commit`](crate::Store::careful_commit) has no such case.
#[derive(Clone, Copy, Debug, Eq, PartialEq)]
pub enum NotCommitted {
    /// Nothing has changed.
    Refused(Refusal),
    /// [`Refusal::MovedOver`]: the store has moved, and its live records are over the bank's size.
    /// Leave the flash alone and open it again.
    Moved {
        /// What the move would have erased. Do not carry it out: it is of the next bank, and the
        /// next commit may ask for the erase of the only good one.
        erase: Option<usize>,
    },
}

impl NotCommitted {
    /// Why it was refused.
    pub fn refusal(self) -> Refusal {
        match self {
            NotCommitted::Refused(refusal) => refusal,
            NotCommitted::Moved { .. } => Refusal::MovedOver,
        }
    }
}

impl Display for NotCommitted {
    fn fmt(&self, f: &mut Formatter) -> fmt::Result {
        self.refusal().fmt(f)
    }
}

/// What a commit's number and requests mean, with the output after it.
pub(crate) fn told(
    number: u32,
    requests: [u64; 4],
    output: &[u8],
) -> Result<Commit<'_>, NotCommitted> {
    let (erase, done) = read(number, requests, output);
    done.map_err(|refusal| match refusal {
        Refusal::MovedOver => NotCommitted::Moved { erase },
        refusal => NotCommitted::Refused(refusal),
    })
}

/// The same of a careful commit, of which no refusal asks for anything.
pub(crate) fn told_carefully(
    number: u32,
    requests: [u64; 4],
    output: &[u8],
) -> Result<Commit<'_>, Refusal> {
    match read(number, requests, output).1 {
        Err(_) if requests != [0; 4] => panic!("the library answered {requests:?}"),
        done => done,
    }
}

/// The erase that is asked for, and the commit or why there is none. An answer that the library
/// does not promise is a fault of its own, and ends the program.
fn read(
    number: u32,
    requests: [u64; 4],
    output: &[u8],
) -> (Option<usize>, Result<Commit<'_>, Refusal>) {
    let [asked, at, offset, length] = requests.map(|r| r as usize);
    let erase = match (asked, at) {
        (0, 0) => None,
        (1, at) => Some(at),
        _ => panic!("the library answered {requests:?}"),
    };
    let done = Refusal::check(number).map(|()| match output.get(..length) {
        Some(bytes) => Commit { erase, offset, bytes },
        None => panic!("the library answered {requests:?}"),
    });
    (erase, done)
}

#[cfg(test)]
mod tests {
    use super::*;

    #[test]
    #[should_panic(expected = "the library answered [1, 0, 0, 3]")]
    fn more_bytes_than_were_lent_are_a_fault() {
        let _ = told(0, [1, 0, 0, 3], &[7; 2]);
    }

    #[test]
    fn a_12_asks_for_an_erase_or_for_nothing() {
        let moved = NotCommitted::Moved { erase: Some(65_536) };
        assert_eq!(told(12, [1, 65_536, 0, 0], &[]), Err(moved));
        assert_eq!(told_carefully(12, [0; 4], &[]), Err(Refusal::MovedOver));
    }

    #[test]
    #[should_panic(expected = "the library answered [1, 65536, 0, 0]")]
    fn a_careful_refusal_with_an_erase_is_a_fault() {
        let _ = told_carefully(12, [1, 65_536, 0, 0], &[]);
    }
}
