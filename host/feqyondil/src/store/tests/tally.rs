//! Erase requests by caller.

use super::*;
use crate::state::{ENTRY_KIND, STATE_BARREL_TALLY, STATE_CLOCK_TALLY, STATE_ENTRIES};

/// A value that a bank has room for once: from the second insert on a commit moves the bank.
fn fill(store: &mut Store) {
    store.insert(b"log", &[7; 40_000], Common).unwrap();
}

#[test]
fn an_erase_request_counts_for_its_caller() {
    let (mut flash, mut lent, mut output) = (winder(), work(2), vec![0; BANK_SIZE]);
    let mut store = Store::open(&flash, &mut lent).unwrap();
    for (caller, old, careful) in [
        (Clock, tally(0, 0), tally(1, 0)),
        (Barrel, tally(1, 1), tally(1, 2)),
        (Clock, tally(2, 2), tally(3, 2)),
    ] {
        fill(&mut store);
        carry_out(&mut flash, store.commit(caller, &mut output).unwrap());
        assert_eq!(store.tally(), old);
        fill(&mut store);
        carry_out(&mut flash, store.careful_commit(caller, &mut output).unwrap());
        assert_eq!(store.tally(), careful);
    }
    assert_eq!(Store::open(&flash, &mut lent).unwrap().tally(), tally(0, 0));
}

#[test]
fn each_tally_stops_by_itself() {
    const STOP: u32 = 4_294_967_295;
    let (mut lent, mut output) = (work(2), vec![0; BANK_SIZE]);
    let mut store = Store::open(&winder(), &mut lent).unwrap();
    fill(&mut store);
    for at in [STATE_CLOCK_TALLY, STATE_BARREL_TALLY] {
        store.state[at..at + 4].copy_from_slice(&(STOP - 1).to_le_bytes());
    }
    for (caller, clock, barrel) in [
        (Barrel, STOP - 1, STOP),
        (Barrel, STOP - 1, STOP),
        (Clock, STOP, STOP),
        (Clock, STOP, STOP),
    ] {
        fill(&mut store);
        assert!(store.careful_commit(caller, &mut output).unwrap().erase.is_some());
        assert_eq!(store.tally(), Tally { clock, barrel, total: STOP });
    }
}

#[test]
fn bytes_that_hold_no_state_have_no_tally() {
    let mut told = [7; 3];
    let mut state = [0; STATE_SIZE];
    assert_eq!((lent::tally(&state[1..], &mut told), told), (6, [0; 3]));
    (state[STATE_CLOCK_TALLY], state[STATE_BARREL_TALLY]) = (1, 2);
    assert_eq!((lent::tally(&state, &mut told), told), (0, [1, 2, 3]));
    state[STATE_ENTRIES + ENTRY_KIND] = 3;
    assert_eq!((lent::tally(&state, &mut told), told), (6, [0; 3]));
}
