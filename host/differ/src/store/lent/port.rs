//! The port's calls on lent buffers, and what they are to leave alone.

use super::call::{Answer, Call, Caller, Manner, Way, What, ROOM};
use crate::partition::cause::{compare_all, Causes, PortCause};

/// Bytes before and after a buffer that nobody lent.
const GUARD: usize = 64;
/// What guards hold.
const BEFORE: u8 = 0xA5;

/// The port, with a fault behind each of its calls where a test plants one.
#[derive(Clone, Copy)]
pub struct Port {
    pub fault: Option<fn(&mut Done)>,
    pub cause: PortCause,
}

impl Default for Port {
    fn default() -> Self {
        Port { fault: None, cause: feqyondil::bank_cause }
    }
}

/// A call of the port that is done, for a planted fault to change.
#[cfg_attr(not(test), allow(dead_code))]
pub struct Done<'a> {
    /// None is the opening, which answers its number.
    pub call: Option<&'a Call>,
    /// State and work area before it, and after it.
    pub before: (Vec<u8>, Vec<u8>),
    pub state: &'a mut [u8],
    pub work: &'a mut [u8],
    pub answer: Answer,
}

/// How buffers stand in memory; it must not matter.
#[derive(Clone, Copy, Debug, PartialEq)]
pub enum Standing {
    /// In the middle of others, this many bytes behind a guard.
    Guarded(usize),
    /// Alone, so that a memory checker sees a read past either end too.
    Alone,
}

/// A buffer to lend, of bytes or of numbers.
pub struct Buffer<T = u8> {
    whole: Box<[T]>,
    from: usize,
    to: usize,
}

impl<T: Copy + PartialEq + From<u8>> Buffer<T> {
    pub fn new(lent: &[T], standing: Standing) -> Self {
        let (before, after) = match standing {
            Standing::Guarded(start) => (GUARD + start, GUARD),
            Standing::Alone => (0, 0),
        };
        let mut whole = Vec::with_capacity(before + lent.len() + after);
        whole.resize(before, BEFORE.into());
        whole.extend_from_slice(lent);
        whole.resize(before + lent.len() + after, BEFORE.into());
        Buffer { whole: whole.into_boxed_slice(), from: before, to: before + lent.len() }
    }

    pub fn slice(&self) -> &[T] {
        &self.whole[self.from..self.to]
    }

    pub fn slice_mut(&mut self) -> &mut [T] {
        &mut self.whole[self.from..self.to]
    }

    /// Nobody wrote before or behind it.
    pub fn intact(&self) -> bool {
        let mut guards = self.whole[..self.from].iter().chain(&self.whole[self.to..]);
        guards.all(|&b| b == BEFORE.into())
    }

    /// The same, and it holds what was lent.
    pub fn still_holds(&self, lent: &[T]) -> bool {
        self.intact() && self.slice() == lent
    }
}

/// State and work area, lent call after call.
pub struct Lent {
    pub port: Port,
    pub standing: Standing,
    pub state: Buffer,
    pub work: Buffer,
    /// Of the banks that were opened.
    pub causes: Causes,
}

impl Lent {
    pub fn new(port: Port, standing: Standing, state: &[u8], work: &[u8]) -> Self {
        Lent {
            port,
            standing,
            state: Buffer::new(state, standing),
            work: Buffer::new(work, standing),
            causes: Causes::default(),
        }
    }

    /// The port also names why the reading of each bank stopped, as 01 does.
    pub fn open(&mut self, image: &[u8]) -> Result<u32, String> {
        let (lent, before) = (Buffer::new(image, self.standing), self.before());
        let (state, work) = (self.state.slice_mut(), self.work.slice_mut());
        let number = feqyondil::lent::open(lent.slice(), state, work);
        self.causes += compare_all(self.port.cause, lent.slice())?;
        self.untouched(&[(&lent, image)])?;
        match self.done(None, before, Answer::Number(number)) {
            Answer::Number(number) => Ok(number),
            other => Err(format!("it opens with {other}")),
        }
    }

    pub fn ask(&mut self, call: &Call) -> Result<Answer, String> {
        let (key, before) = (Buffer::new(&call.key, self.standing), self.before());
        let (state, work) = (self.state.slice_mut(), self.work.slice_mut());
        let (lent_key, typ) = (key.slice(), call.typ);
        let answer = match &call.what {
            What::Insert(manner, value) => {
                let insert = match manner {
                    Manner::Plain => feqyondil::lent::insert,
                    Manner::Barrel => feqyondil::lent::barrel_insert,
                };
                let lent = Buffer::new(value, self.standing);
                let number = insert(state, work, lent_key, lent.slice(), typ);
                self.untouched(&[(&lent, value)])?;
                Answer::Number(number)
            }
            What::Remove => Answer::Number(feqyondil::lent::remove(state, work, lent_key, typ)),
            What::Lookup => {
                let lookup = |out: &mut _| feqyondil::lent::lookup(state, work, lent_key, typ, out);
                let (number, found) = with_numbers(lookup)?;
                Answer::Lookup(number, found)
            }
            What::Figures => {
                let figures = |out: &mut _| feqyondil::lent::figures(state, work, out);
                let (number, figures) = with_numbers(figures)?;
                Answer::Figures(number, figures)
            }
            What::Tally => {
                let (number, tally) = with_numbers(|out| feqyondil::lent::tally(state, out))?;
                Answer::Tally(number, tally)
            }
            What::Value(room) | What::Commit(.., room) | What::Whole(room) => {
                self.with_room(call, &key, *room)?
            }
        };
        self.untouched(&[(&key, &call.key)])?;
        Ok(self.done(Some(call), before, answer))
    }

    fn with_room(&mut self, call: &Call, key: &Buffer, room: usize) -> Result<Answer, String> {
        let mut lent = Buffer::new(&vec![ROOM; room], self.standing);
        let (state, work) = (self.state.slice_mut(), self.work.slice_mut());
        let out = lent.slice_mut();
        let mut answer = match call.what {
            What::Commit(way, Caller(caller), _) => {
                let commit = match way {
                    Way::Old => feqyondil::lent::commit,
                    Way::Careful => feqyondil::lent::careful_commit,
                };
                let commit = |asked: &mut _| commit(state, work, out, caller, asked);
                let (number, asked) = with_numbers(commit)?;
                Answer::Commit(number, asked, Vec::new())
            }
            What::Whole(_) => {
                let whole = |length: &mut _| feqyondil::lent::whole_image(state, work, out, length);
                let (number, [length]) = with_numbers(whole)?;
                Answer::Whole(number, length, Vec::new())
            }
            _ => {
                let length = feqyondil::lent::value(state, work, key.slice(), call.typ, out);
                Answer::Value(length, Vec::new())
            }
        };
        self.untouched(&[(&lent, lent.slice())])?;
        *answer.room_mut().expect("a room") = lent.slice().to_vec();
        Ok(answer)
    }

    /// State and work area, where a fault may ask for them.
    fn before(&self) -> Option<(Vec<u8>, Vec<u8>)> {
        let both = || (self.state.slice().to_vec(), self.work.slice().to_vec());
        self.port.fault.map(|_| both())
    }

    fn done(
        &mut self,
        call: Option<&Call>,
        before: Option<(Vec<u8>, Vec<u8>)>,
        answer: Answer,
    ) -> Answer {
        let (Some(fault), Some(before)) = (self.port.fault, before) else {
            return answer;
        };
        let (state, work) = (self.state.slice_mut(), self.work.slice_mut());
        let mut done = Done { call, before, state, work, answer };
        fault(&mut done);
        done.answer
    }

    /// These buffers are as they were, and no guard was written over.
    fn untouched(&self, lent: &[(&Buffer, &[u8])]) -> Result<(), String> {
        let same = lent.iter().all(|(buffer, bytes)| buffer.still_holds(bytes));
        if same && self.state.intact() && self.work.intact() {
            return Ok(());
        }
        Err("it wrote where it was not to".to_string())
    }
}

/// A call that answers a number and fills an array, with arrays on both sides of it.
fn with_numbers<const N: usize>(
    call: impl FnOnce(&mut [u64; N]) -> u32,
) -> Result<(u32, [u64; N]), String> {
    let other = [u64::MAX; N];
    let mut out = [other; 3];
    let number = call(&mut out[1]);
    if (out[0], out[2]) != (other, other) {
        return Err("it wrote beside its answer".to_string());
    }
    Ok((number, out[1]))
}

#[cfg(test)]
mod tests {
    use super::*;

    #[test]
    fn a_touched_guard_is_seen() {
        for at in [0, GUARD + 4, GUARD + 5 + 3, 2 * GUARD + 5 + 2] {
            let mut buffer = Buffer::new(&[1, 2, 3], Standing::Guarded(5));
            assert!(buffer.intact());
            buffer.whole[at] ^= 1;
            assert!(!buffer.intact(), "at {at}");
        }
        let mut alone = Buffer::new(&[1, 2, 3], Standing::Alone);
        assert_eq!(alone.slice_mut(), [1, 2, 3]);
        assert_eq!(alone.whole.len(), 3);
    }
}
