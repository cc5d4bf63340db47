//! The inputs of docs/DIFFERENCES.md, 'Bank': there the Rust does as is said.

use feqyondil::bank_cause;
use image::{put_number, Header, BANK, HEADER};

use super::lent::{self, Lending};
use super::model::{self, Outside};
use super::rust;

const PLAIN: Lending = Lending { start: 0, nvr: BANK, part: BANK, short: 0 };

/// What the Rust does with a bank on which the port does as 01 says, and why it may not be asked.
fn outside(bank: &[u8]) -> (String, Option<Outside>) {
    let next = image::bank(&Header::new(HEADER as u32, 1), &[]);
    let image = [bank, &next].concat();
    let (said, mut buffer) = (model::read(bank), Vec::new());
    let port = lent::read(&image, PLAIN, &mut buffer);
    assert_eq!(port, Ok(said.slot));
    assert_eq!(lent::cause(bank_cause, &image, PLAIN), Ok(said.cause));
    let rust = rust::read(&image).map_or_else(|fault| fault, |slot| slot.to_string());
    (rust, said.outside)
}

/// A bank of 0xFF but for signature, size and version.
fn plain(size: u32) -> Vec<u8> {
    let mut bank = vec![0xFF; BANK];
    bank[..4].copy_from_slice(b"3VVN");
    put_number(&mut bank, 4, size);
    bank[14] = 1;
    bank
}

/// A plain bank with a record header of 0xFF but for start number and lengths.
fn with_lengths(size: u32, name: u32, value: u32) -> Vec<u8> {
    let mut bank = plain(size);
    bank[24..26].copy_from_slice(&[0xAA, 0x55]);
    put_number(&mut bank, 24 + 8, name);
    put_number(&mut bank, 24 + 12, value);
    bank
}

#[test]
fn the_rust_takes_a_size_that_is_too_small() {
    let (rust, why) = outside(&plain(23));
    assert!(rust.starts_with("Valid, total 24, usable 23"), "{rust}");
    assert_eq!(why, Some(Outside::Size));
}

#[test]
fn the_rust_panics_outside_the_domain() {
    let panics = |why| ("it panics".to_string(), Some(why));
    assert_eq!(outside(&plain(65_537)), panics(Outside::Size));
    let nameless = with_lengths(65_536, 0, 0);
    assert_eq!(outside(&nameless), panics(Outside::Name));
    let wrapping = with_lengths(65_536, u32::MAX, 1);
    assert_eq!(outside(&wrapping), panics(Outside::Sum));
}

#[test]
fn a_bank_may_use_more_than_its_size() {
    let mut bank = with_lengths(61, 2, 0);
    put_number(&mut bank, 24 + 32, 0);
    let (rust, why) = outside(&bank);
    assert!(rust.starts_with("Valid, total 62, usable 61"), "{rust}");
    assert_eq!(why, None);
}
