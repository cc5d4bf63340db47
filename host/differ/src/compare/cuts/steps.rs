//! What a commit does to the flash, step by step.

use image::BANK;

use crate::store::lent::call::Answer;
use crate::store::run::flash::erase;

/// An erase or one byte's programming. Each is taken as whole: power goes between two of them.
#[derive(Clone, Copy, Debug, PartialEq)]
pub enum Step {
    /// Of the bank at this offset.
    Erase(usize),
    /// At this offset, by this byte of the output.
    Program(usize, u8),
}

impl Step {
    /// Programming can only clear bits.
    pub fn apply(self, flash: &mut [u8]) {
        match self {
            Step::Erase(offset) => flash[offset..offset + BANK].fill(0xFF),
            Step::Program(at, byte) => flash[at] &= byte,
        }
    }
}

/// In which order the bytes of a write are programmed.
pub struct Order {
    pub name: &'static str,
    /// Is given the steps from the first byte to the last.
    pub arrange: fn(&mut [Step]),
    /// A cut is to lose nothing.
    pub keeps: bool,
}

pub const UPWARD: Order = Order { name: "upward", arrange: |_| {}, keeps: false };
pub const DOWNWARD: Order =
    Order { name: "downward", arrange: |bytes| bytes.reverse(), keeps: true };

/// An accepted commit's steps: its erase, then a step for each byte at which the flash differs from
/// the output by then. None for a refused commit.
pub fn steps(flash: &[u8], answer: &Answer, order: &Order) -> Result<Vec<Step>, String> {
    let Some((offset, bytes)) = answer.written() else {
        return Ok(Vec::new());
    };
    let erased = erase(answer);
    let outside = |at: usize, len| flash.get(at..at + len).is_none();
    if outside(offset, bytes.len()) || erased.is_some_and(|at| outside(at, BANK)) {
        return Err("a request outside the flash".to_string());
    }
    let now = |at: usize| match erased {
        Some(bank) if (bank..bank + BANK).contains(&at) => 0xFF,
        _ => flash[at],
    };
    let places = (offset..).zip(bytes);
    let differing = places.filter(|&(at, &byte)| now(at) != byte);
    let mut programs: Vec<Step> = differing.map(|(at, &b)| Step::Program(at, b)).collect();
    (order.arrange)(&mut programs);
    Ok(erased.map(Step::Erase).into_iter().chain(programs).collect())
}

#[cfg(test)]
mod tests {
    use super::*;
    use crate::store::run::flash::Flash;

    #[test]
    fn the_steps_of_either_order_are_the_commit() {
        let flash = Flash::new(&[0x3C; 2 * BANK]);
        let in_place = Answer::Commit(0, [0, 0, 10, 4], vec![0x3C, 0x0F, 0x3C, 0x30]);
        let moved = [1, BANK as u64, BANK as u64, 3];
        let moved = Answer::Commit(0, moved, vec![0xFF, 1, 0x3C]);
        let at = |at, byte| Step::Program(at, byte);
        let erase = Step::Erase(BANK);
        let (low, high) = (at(BANK + 1, 1), at(BANK + 2, 0x3C));
        for (answer, upward, downward) in [
            (&in_place, vec![at(11, 0x0F), at(13, 0x30)], vec![at(13, 0x30), at(11, 0x0F)]),
            (&moved, vec![erase, low, high], vec![erase, high, low]),
        ] {
            let mut whole = flash.clone();
            whole.carry_out(answer).unwrap();
            for (order, said) in [(UPWARD, upward), (DOWNWARD, downward)] {
                let steps = steps(&flash.bytes, answer, &order).unwrap();
                assert_eq!(steps, said);
                let mut bytes = flash.bytes.clone();
                steps.iter().for_each(|step| step.apply(&mut bytes));
                assert!(bytes == whole.bytes);
            }
        }
        let outside = Answer::Commit(0, [1, 2 * BANK as u64, 0, 0], vec![]);
        assert!(steps(&flash.bytes, &outside, &UPWARD).is_err());
        let refused = Answer::Commit(12, [1, 0, 0, 0], vec![]);
        assert_eq!(steps(&flash.bytes, &refused, &UPWARD), Ok(vec![]));
    }
}
