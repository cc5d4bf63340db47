//! Whether two banks hold the same settings, by the words of N1: written from them and from
//! neither side's code.

use super::model::{self, Reading};
use super::slot::Slot;

/// Yes or no, or a refusal's number.
pub type Answer = Result<bool, u32>;

/// Both as 01 reads them; nothing is read where one has another length than a bank.
pub fn read<'a>(pair: [&'a [u8]; 2]) -> Option<[Reading<'a>; 2]> {
    let whole = pair.iter().all(|bank| bank.len() == 65_536);
    whole.then(|| pair.map(model::read))
}

pub fn said(read: Option<&[Reading; 2]>) -> Answer {
    let [one, other] = read.ok_or(14u32)?;
    Ok(match (&one.slot, &other.slot) {
        (Slot::Valid(one), Slot::Valid(other)) => one.same_settings(other),
        _ => false,
    })
}
