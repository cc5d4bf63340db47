//! Why the reading of a bank stopped (N2): the cause that the port names, held against its own
//! reading of the same bytes and against 01's, and how many banks there were of each.

use std::ops::AddAssign;

use feqyondil::{partition_parse, Cause, Slot};
use image::BANK;

use super::model::{self, Reading};
use super::slot;

/// How the port names a cause; the tests plant faults here.
pub type PortCause = fn(&[u8]) -> Cause;

/// What a bank is by its cause.
pub fn kind(cause: Cause) -> &'static str {
    match cause {
        Cause::Short => "Short",
        Cause::Empty => "Empty",
        fault if fault.is_fault() => "Invalid",
        _ => "Valid",
    }
}

/// The port's cause of what is lent, which is to go with what it reads there.
fn named(port: PortCause, nvr: &[u8]) -> Result<Cause, String> {
    let cause = port(nvr);
    let read = match partition_parse(nvr) {
        Slot::Short => "Short",
        Slot::Empty => "Empty",
        Slot::Invalid => "Invalid",
        Slot::Valid(_) => "Valid",
    };
    match read == kind(cause) {
        true => Ok(cause),
        false => Err(format!("{cause}, and it reads {read}")),
    }
}

/// The port's cause of what is lent is that of 01's reading; of too few bytes there is none.
pub fn compare(port: PortCause, nvr: &[u8], read: Option<&Reading>) -> Result<Causes, String> {
    let (said, named) = (read.map_or(Cause::Short, |read| read.cause), named(port, nvr));
    match named == Ok(said) {
        true => Ok(Causes::of(read)),
        false => Err(parting(said, &named)),
    }
}

/// The same for every bank of an image, lent with all that follows it, and for bytes behind the
/// last, which are too few.
pub fn compare_all(port: PortCause, image: &[u8]) -> Result<Causes, String> {
    let mut causes = Causes::default();
    for at in (0..image.len().max(1)).step_by(BANK) {
        let nvr = &image[at..];
        let read = nvr.get(..BANK).map(model::read);
        let place = |parting| format!("\n  of the bank at {at}\n{parting}");
        causes += compare(port, nvr, read.as_ref()).map_err(place)?;
    }
    Ok(causes)
}

/// What is told where they differ.
pub fn parting(said: Cause, named: &Result<Cause, String>) -> String {
    let port = named.as_ref().map_or_else(String::clone, Cause::to_string);
    format!("  01's cause:   {said}\n  port's cause: {port}")
}

/// A cause, and the same where a record was read before it.
const NAMES: [&str; 17] = [
    "short",
    "empty",
    "signature",
    "version",
    "size",
    "name",
    "later name",
    "crc",
    "later crc",
    "blank",
    "later blank",
    "start",
    "later start",
    "length",
    "later length",
    "end",
    "later end",
];

fn name(read: &Reading) -> &'static str {
    let records = match &read.slot {
        slot::Slot::Valid(bank) => bank.records.len(),
        _ => read.cause.index().unwrap_or(0),
    };
    let [first, later] = match read.cause {
        Cause::Short => ["short"; 2],
        Cause::Empty => ["empty"; 2],
        Cause::Signature => ["signature"; 2],
        Cause::Version => ["version"; 2],
        Cause::Size => ["size"; 2],
        Cause::Name(_) => ["name", "later name"],
        Cause::Crc(_) => ["crc", "later crc"],
        Cause::Blank => ["blank", "later blank"],
        Cause::Start => ["start", "later start"],
        Cause::Length => ["length", "later length"],
        Cause::End => ["end", "later end"],
    };
    match records {
        0 => first,
        _ => later,
    }
}

/// So many banks of each name.
#[derive(Clone, Copy, Debug, Default, PartialEq)]
pub struct Causes([u64; NAMES.len()]);

impl Causes {
    /// One bank as 01 reads it, or bytes that are too few for one.
    pub fn of(read: Option<&Reading>) -> Self {
        let own = read.map_or("short", name);
        Causes(NAMES.map(|name| u64::from(name == own)))
    }

    pub fn numbers(&self) -> Vec<(&'static str, u64)> {
        NAMES.into_iter().zip(self.0).collect()
    }
}

impl AddAssign for Causes {
    fn add_assign(&mut self, more: Causes) {
        self.0.iter_mut().zip(more.0).for_each(|(number, more)| *number += more);
    }
}

#[cfg(test)]
mod tests {
    use super::*;

    #[test]
    fn a_cause_that_does_not_go_with_the_reading_is_told() {
        let (erased, zeros) = (vec![0xFF; BANK], vec![0; BANK]);
        assert_eq!(named(|_| Cause::Empty, &erased), Ok(Cause::Empty));
        let told = |cause: PortCause, nvr: &[u8]| named(cause, nvr).unwrap_err();
        assert_eq!(told(|_| Cause::Version, &erased), "version 14, and it reads Empty");
        assert_eq!(told(|_| Cause::Blank, &zeros), "blank, and it reads Invalid");
        assert_eq!(told(|_| Cause::Empty, &erased[1..]), "empty, and it reads Short");
    }

    #[test]
    fn each_bank_of_an_image_is_compared() {
        let image = [vec![0; BANK], vec![0xFF; BANK], vec![0xFF; 7]].concat();
        let causes = compare_all(feqyondil::bank_cause, &image).unwrap();
        let met = causes.numbers().into_iter().filter(|(_, count)| *count > 0);
        assert_eq!(met.collect::<Vec<_>>(), [("short", 1), ("empty", 1), ("signature", 1)]);
        let told = compare_all(|_| Cause::Signature, &image).unwrap_err();
        assert!(told.contains("of the bank at 65536\n  01's cause:   empty\n"), "{told}");
    }
}
