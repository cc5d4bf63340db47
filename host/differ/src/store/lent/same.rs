//! State and work area as 01 says they are, and as a side has them; what the port tells of its
//! tallies.

use super::call::{Answer, Call};
use super::port::Lent;
use super::state::State;

pub fn same_state(said: &[u8], has: &[u8], side: &str) -> Result<(), String> {
    if said == has {
        return Ok(());
    }
    let state = |bytes| match State::read(bytes) {
        Some(state) => state.to_string(),
        None => format!("{bytes:02x?}"),
    };
    let (said, has) = (state(said), state(has));
    Err(format!("\n  01's state:   {said}\n  {side}'s state: {has}"))
}

pub fn same_work(said: &[u8], has: &[u8], side: &str) -> Result<(), String> {
    if said == has {
        return Ok(());
    }
    let differs = said.iter().zip(has).position(|(a, b)| a != b);
    let Some(at) = differs else {
        let (said, has) = (said.len(), has.len());
        return Err(format!("\n  01: a work area of {said}, {side}: of {has}"));
    };
    let end = (at + 16).min(said.len()).min(has.len());
    let (said, has) = (&said[at..end], &has[at..end]);
    Err(format!("\n  the work area from {at} on, 01: {said:02x?}, {side}: {has:02x?}"))
}

/// Asks the port for its tallies, of any state.
pub fn same_tally(said: &Answer, lent: &mut Lent) -> Result<(), String> {
    let call = Call::tally();
    let has = lent.ask(&call)?;
    if has == *said {
        return Ok(());
    }
    Err(format!("\n  {call}\n  01:   {said}\n  port: {has}"))
}

#[cfg(test)]
mod tests {
    use super::super::state::STATE;
    use super::*;

    #[test]
    fn a_difference_is_told_with_its_place() {
        assert_eq!(same_work(&[1, 2, 3], &[1, 2, 3], "port"), Ok(()));
        let fault = same_work(&[1, 2, 3], &[1, 9, 3], "port").unwrap_err();
        assert!(fault.contains("from 1 on, 01: [02, 03], port: [09, 03]"), "{fault}");
        let fault = same_work(&[1, 2, 3], &[1, 2], "port").unwrap_err();
        assert!(fault.contains("01: a work area of 3, port: of 2"), "{fault}");
        let mut state = [0; STATE];
        assert_eq!(same_state(&state, &[0; STATE], "port"), Ok(()));
        state[0] = 5;
        let fault = same_state(&[0; STATE], &state, "port").unwrap_err();
        assert!(fault.contains("01's state:   n 0, "), "{fault}");
        assert!(fault.contains("port's state: n 5, "), "{fault}");
    }
}
