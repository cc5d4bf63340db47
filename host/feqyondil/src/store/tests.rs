//! A store on lent buffers, from its opening to its refusals.

mod tally;

use std::vec;
use std::vec::Vec;

use super::Caller::{Barrel, Clock};
use super::VarType::{Common, System};
use super::*;
use crate::{Kind, BANKS_MAX, BANK_SIZE, BARREL_VALUE_MAX, PART_SIZE};

/// A bank of 0xFF but for a header of size 65,536 and generation 1.
fn image() -> Vec<u8> {
    let mut image = vec![0xFF; BANK_SIZE];
    image[..16].copy_from_slice(b"3VVN\0\0\x01\0\x01\0\0\0\0\0\x01\0");
    image
}

/// One whose active bank, the first, isn't Valid.
fn without_active() -> Vec<u8> {
    let mut old = image();
    old[8] = 0; // the generation
    [vec![0; BANK_SIZE], old].concat()
}

/// A work area for this many banks.
fn work(banks: usize) -> Vec<u8> {
    vec![0; banks * PART_SIZE]
}

#[test]
fn a_value_comes_back_until_it_is_removed() {
    let mut work = work(1);
    let mut store = Store::open(&image(), &mut work).unwrap();
    assert_eq!(store.get(b"rate", System), Ok(None));
    store.insert(b"rate", b"123456789", System).unwrap();
    assert_eq!(store.get(b"rate", System), Ok(Some(&b"123456789"[..])));
    assert_eq!(store.find(b"rate", System), Ok(Some(65..74)));
    assert_eq!(store.get(b"rate", Common), Ok(None));
    store.insert(b"rate", b"", System).unwrap();
    assert_eq!(store.get(b"rate", System), Ok(Some(&b""[..])));
    store.remove(b"rate", System).unwrap();
    assert_eq!(store.get(b"rate", System), Ok(None));
}

#[test]
fn a_barrel_value_has_512_bytes_at_most() {
    let mut work = work(1);
    let mut store = Store::open(&image(), &mut work).unwrap();
    let long = [7; BARREL_VALUE_MAX + 1];
    for value in [&long[..511], &long[..512]] {
        store.barrel_insert(b"tune", value, Common).unwrap();
        assert_eq!(store.get(b"tune", Common), Ok(Some(value)));
    }
    let before = (*store.state(), store.work().to_vec());
    assert_eq!(store.barrel_insert(b"tune", &long, Common), Err(Refusal::ValueLong));
    assert_eq!((store.state(), store.work()), (&before.0, &before.1[..]));
    store.insert(b"tune", &long, Common).unwrap();
    assert_eq!(store.get(b"tune", Common), Ok(Some(&long[..])));
}

#[test]
fn a_long_barrel_value_is_refused_after_7_and_before_8() {
    let (mut first, mut second) = (work(2), work(1));
    let long = [7; BARREL_VALUE_MAX + 1];
    let mut store = Store::open(&without_active(), &mut first).unwrap();
    assert_eq!(store.barrel_insert(b"", &long, Common), Err(Refusal::NotValid));
    let mut store = Store::open(&image(), &mut second).unwrap();
    store.insert(b"", &vec![7; PART_SIZE - 24 - 37], Common).unwrap();
    assert_eq!(store.barrel_insert(b"", &long, Common), Err(Refusal::ValueLong));
    assert_eq!(store.barrel_insert(b"", &long[1..], Common), Err(Refusal::Full));
    assert_eq!(store.insert(b"", &long, Common), Err(Refusal::Full));
}

#[test]
fn either_insert_takes_the_place_of_the_others_value() {
    type Insert<'a> = fn(&mut Store<'a>, &[u8], &[u8], VarType) -> Result<(), Refusal>;
    let mut work = work(1);
    let mut store = Store::open(&image(), &mut work).unwrap();
    let [plain, barrel]: [Insert; 2] = [Store::insert, Store::barrel_insert];
    for (first, second) in [(plain, barrel), (barrel, plain)] {
        first(&mut store, b"tune", b"1", Common).unwrap();
        second(&mut store, b"tune", b"2", Common).unwrap();
        assert_eq!(store.get(b"tune", Common), Ok(Some(&b"2"[..])));
        assert_eq!(store.figures().unwrap().common, 42);
        store.remove(b"tune", Common).unwrap();
        assert_eq!(store.figures().unwrap().common, 0);
    }
}

#[test]
fn a_value_is_copied_as_far_as_there_is_room() {
    let mut work = work(1);
    let mut store = Store::open(&image(), &mut work).unwrap();
    store.insert(b"rate", b"12345", Common).unwrap();
    let mut out = *b"-------";
    assert_eq!(store.value(b"rate", Common, &mut out[..3]), 5);
    assert_eq!(&out, b"123----");
    assert_eq!(store.value(b"rate", Common, &mut out), 5);
    assert_eq!(&out, b"12345--");
    assert_eq!(store.value(b"rate", System, &mut out), 0);
}

#[test]
fn figures_are_what_records_come_to() {
    let mut work = work(1);
    let mut store = Store::open(&image(), &mut work).unwrap();
    let figures = |system, common, count| Ok(Figures { system, common, count });
    assert_eq!(store.figures(), figures(0, 0, 0));
    store.insert(b"rate", b"123456789", System).unwrap();
    store.insert(b"k", b"", Common).unwrap();
    assert_eq!(store.figures(), figures(50, 38, 2));
    store.insert(b"rate", b"1", System).unwrap();
    store.remove(b"k", Common).unwrap();
    assert_eq!(store.figures(), figures(42, 0, 3));
}

#[test]
fn a_commit_is_written_and_reopened() {
    let mut flash = [image(), vec![0xFF; BANK_SIZE]].concat();
    flash[8] = 2; // the generation
    let (mut first, mut second) = (work(2), work(2));
    let mut output = vec![7; 2 * BANK_SIZE];
    let mut store = Store::open(&flash, &mut first).unwrap();
    store.insert(b"rate", b"123456789", System).unwrap();
    let done = store.commit(Clock, &mut output).unwrap();
    assert_eq!((done.erase, done.offset), (None, 0));
    assert_eq!(done.bytes.len(), BANK_SIZE);
    flash[..BANK_SIZE].copy_from_slice(done.bytes);
    assert_eq!(output[BANK_SIZE..], [7; BANK_SIZE]);
    let whole = store.whole_image(&mut output).unwrap();
    assert_eq!(whole, &flash[..BANK_SIZE]);
    let again = Store::open(&flash, &mut second).unwrap();
    assert_eq!(again.get(b"rate", System), Ok(Some(&b"123456789"[..])));
    assert_eq!((again.state(), again.work()), (store.state(), store.work()));
}

#[test]
fn a_move_asks_for_the_erase_of_the_next_bank() {
    let (mut work, mut output) = (work(2), vec![0; 2 * BANK_SIZE]);
    let flash = [image(), vec![0; BANK_SIZE]].concat();
    let mut store = Store::open(&flash, &mut work).unwrap();
    let value = vec![7; BANK_SIZE - 24 - 37];
    store.insert(b"", &value, Common).unwrap();
    assert_eq!(store.commit(Clock, &mut output).unwrap().erase, None);
    store.insert(b"", b"", Common).unwrap();
    let moved = store.commit(Clock, &mut output).unwrap();
    assert_eq!((moved.erase, moved.offset), (Some(BANK_SIZE), BANK_SIZE));
    assert_eq!(moved.bytes[8], 2);
    store.insert(b"k", &value, Common).unwrap();
    let over = NotCommitted::Moved { erase: Some(0) };
    assert_eq!(store.commit(Barrel, &mut output), Err(over));
    assert_eq!(store.tally(), tally(1, 1));
    assert_eq!(store.whole_image(&mut output), Err(Refusal::BankOver));
}

/// The erase, if there is one, and the write.
fn carry_out(flash: &mut [u8], done: Commit) {
    if let Some(offset) = done.erase {
        flash[offset..offset + BANK_SIZE].fill(0xFF);
    }
    flash[done.offset..][..done.bytes.len()].copy_from_slice(done.bytes);
}

/// A winder's flash: the first bank has the rate and is active, the second is older.
fn winder() -> Vec<u8> {
    let mut flash = [image(), image()].concat();
    flash[8] = 2; // the generation
    let (mut work, mut output) = (work(2), vec![0; BANK_SIZE]);
    let mut store = Store::open(&flash, &mut work).unwrap();
    store.insert(b"rate", b"123456789", System).unwrap();
    carry_out(&mut flash, store.careful_commit(Clock, &mut output).unwrap());
    flash
}

#[test]
fn a_winder_that_retries_12_erases_its_good_bank_by_the_old_commit() {
    let (mut flash, mut first, mut second) = (winder(), work(2), work(2));
    let mut store = Store::open(&flash, &mut first).unwrap();
    store.insert(b"log", &[7; BANK_SIZE], Common).unwrap();
    for (bank, opens) in [(1, Ok(())), (0, Err(Refusal::NoValid))] {
        let at = bank * BANK_SIZE;
        let over = NotCommitted::Moved { erase: Some(at) };
        assert_eq!(store.commit(Clock, &mut vec![0; BANK_SIZE]), Err(over));
        flash[at..at + BANK_SIZE].fill(0xFF);
        assert_eq!(Store::open(&flash, &mut second).map(drop), opens);
    }
}

#[test]
fn a_winder_that_retries_12_is_asked_for_nothing_by_the_careful_commit() {
    let (mut flash, mut first, mut second) = (winder(), work(2), work(2));
    let mut output = vec![7; BANK_SIZE];
    let mut store = Store::open(&flash, &mut first).unwrap();
    store.insert(b"log", &[7; BANK_SIZE], Common).unwrap();
    let before = (*store.state(), store.work().to_vec());
    for _ in 0..3 {
        assert_eq!(store.careful_commit(Clock, &mut output), Err(Refusal::MovedOver));
        assert_eq!((store.state(), store.work()), (&before.0, &before.1[..]));
        assert_eq!(output, [7; BANK_SIZE]);
    }
    let rate = Ok(Some(&b"123456789"[..]));
    assert_eq!(Store::open(&flash, &mut second).unwrap().get(b"rate", System), rate);
    store.remove(b"log", Common).unwrap();
    let moved = store.careful_commit(Clock, &mut output).unwrap();
    assert_eq!((moved.erase, moved.offset), (Some(BANK_SIZE), BANK_SIZE));
    carry_out(&mut flash, moved);
    assert_eq!(store.tally(), tally(1, 0));
    let again = Store::open(&flash, &mut second).unwrap();
    assert_eq!((again.active(), again.get(b"rate", System)), (1, rate));
}

/// With the sum as it is below the stop.
fn tally(clock: u32, barrel: u32) -> Tally {
    Tally { clock, barrel, total: clock + barrel }
}

#[test]
fn the_state_is_told() {
    let mut work = work(3);
    let flash = [vec![0xFF; BANK_SIZE], image(), vec![0; BANK_SIZE]].concat();
    let mut store = Store::open(&flash, &mut work).unwrap();
    store.insert(b"rate", b"123456789", System).unwrap();
    assert_eq!((store.banks(), store.active(), store.tally()), (3, 1, tally(0, 0)));
    let told =
        [(Kind::Empty, 0, 0), (Kind::Valid, 24 + 37 + 4 + 9, BANK_SIZE), (Kind::Invalid, 0, 0)];
    for (i, (kind, total, usable)) in told.into_iter().enumerate() {
        let entry = Entry { kind, total, usable };
        assert_eq!(store.bank(i), Some(entry));
    }
    assert_eq!((store.bank(3), store.bank(BANKS_MAX)), (None, None));
}

#[test]
fn refusals_are_told() {
    let mut lent = work(16);
    let mut refused = |image: &[u8], len| Store::open(image, &mut lent[..len]).err();
    assert_eq!(refused(&image()[1..], 0), Some(Refusal::ImageShort));
    let long = vec![0xFF; (BANKS_MAX + 1) * BANK_SIZE];
    assert_eq!(refused(&long, 0), Some(Refusal::ImageLong));
    assert_eq!(refused(&image(), 131_071), Some(Refusal::WorkShort));
    assert_eq!(refused(&long[1..], 16 * PART_SIZE), Some(Refusal::NoValid));
    let invalid_first = without_active();
    let mut output = vec![0; BANK_SIZE];
    let mut store = Store::open(&invalid_first, &mut lent).unwrap();
    assert_eq!(store.remove(b"", Common), Err(Refusal::NotValid));
    assert_eq!(store.figures(), Err(Refusal::NotValid));
    let refused = |refusal| Err(NotCommitted::Refused(refusal));
    assert_eq!(store.commit(Clock, &mut output), refused(Refusal::NotValid));
    assert_eq!(store.careful_commit(Barrel, &mut output), Err(Refusal::NotValid));
    let short = store.commit(Barrel, &mut output[1..]);
    assert_eq!(short, refused(Refusal::OutputShort));
    let short = store.careful_commit(Clock, &mut output[1..]);
    assert_eq!(short, Err(Refusal::OutputShort));
    let whole = store.whole_image(&mut output);
    assert_eq!(whole, Err(Refusal::OutputShort));
    output.resize(2 * BANK_SIZE, 0);
    let whole = store.whole_image(&mut output);
    assert_eq!(whole, Ok(&invalid_first[BANK_SIZE..]));
    let mut store = Store::open(&image(), &mut lent).unwrap();
    let most = vec![7; PART_SIZE - 24 - 37];
    assert_eq!(store.insert(b"a", &most, Common), Err(Refusal::Full));
    assert_eq!(store.insert(b"", &most, Common), Ok(()));
}
