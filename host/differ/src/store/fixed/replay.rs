//! A fixed list of runs with the oracle's answers, as text: what the port does can be held
//! against it where the Rust is not at hand.

use std::fmt::Write;

use image::BANK;

use super::pieces::Named;
use crate::store::lent::call::{Answer, Call, Caller, Manner, Way, What};
use crate::store::lent::state::Tallies;
use crate::store::run::domain::within;
use crate::store::run::Run;
use crate::store::rust::Rust;

const HEAD: &str = "\
# Runs of the store with the answers of asahi-nvram's v3.rs, built unchanged (host/oracle).
# Made by `differ --write-replay FILE` from the list in host/differ/src/store/fixed.rs, with no
# random number in it; `make test` makes it again and compares. Only calls that the Rust answers
# are in it: it has no work area, no state and no refusals but those of an image and of a commit
# (9, 10, 12). State and work area are those that its records amount to (header, records as
# written, 0xFF behind them). Who commits it is not told: a tally is the count of its erase
# requests in the commits of one caller. A careful commit is asked of a copy of its store where it
# refuses with 12, since it has moved by then. A barrel insert is asked of it as an insert.
#
# A line is a letter and fields, one space between. Numbers are decimal; bytes and checksums
# (CRC-32, eight digits) are hexadecimal, `-` for no bytes. A line with # is for the reader.
#   R NAME             a run begins
#   B FILL BYTES       a bank of the image: the bytes, then FILL up to 65,536 bytes
#   T COUNT FILL BYTES COUNT bytes behind the banks, as a bank's; the image is complete
#   O NUMBER           the opening's answer, with 131,072 bytes of work area for each bank
#   I TYPE KEY COUNT BYTES NUMBER       insert; the value is the bytes COUNT times
#   J TYPE KEY COUNT BYTES NUMBER       barrel insert, as above
#   D TYPE KEY NUMBER                   remove
#   L TYPE KEY NUMBER FOUND PLACE LENGTH
#   V TYPE KEY LENGTH CRC               the value itself
#   F NUMBER SYSTEM COMMON COUNT        what the active bank's records come to: live system ones
#                      and live common ones in bytes, and how many there are, dead ones too
#   C CALLER NUMBER ERASE AT OFFSET LENGTH CRC  commit: CALLER is 0 for the clock, 1 for the
#                      barrel; ERASE is 1 where the bank at AT is to be erased, else both are 0; the
#                      checksum is of the bytes to write
#   K CALLER NUMBER ERASE AT OFFSET LENGTH CRC  careful commit, as above; one that is refused asks
#                      for nothing and changes nothing
#   A NUMBER LENGTH CRC                 the whole image, and the checksum of its bytes
#   S N ACTIVE CLOCK BARREL TOTAL       the state after an opening, an edit or a commit: both
#                      tallies and the total, which is worked out of them; then for each bank KIND
#                      (0 Empty, 1 Invalid, 2 Valid), TOTAL, USABLE
#   W CRC              the work area after it, N times 131,072 bytes
";

/// The list with the oracle's answers.
pub fn text(list: &[Named]) -> Result<String, String> {
    let mut out = HEAD.to_string();
    for (name, run) in list {
        let place = |fault: String| format!("{name}: {fault}");
        out.push_str(&format!("R {name}\n{}", image_lines(&run.image)));
        out.push_str(&answers(run).map_err(place)?);
    }
    Ok(out)
}

fn image_lines(image: &[u8]) -> String {
    let banks = image.chunks_exact(BANK);
    let rest = banks.remainder();
    let lines = banks.map(|bank| format!("B {}\n", filled(bank)));
    let mut out: String = lines.collect();
    let _ = writeln!(out, "T {} {}", rest.len(), filled(rest));
    out
}

/// The byte at the end, and the bytes before its run.
fn filled(all: &[u8]) -> String {
    let fill = all.last().copied().unwrap_or(0);
    let last = all.iter().rposition(|&b| b != fill);
    let front = &all[..last.map_or(0, |at| at + 1)];
    format!("{fill:02X} {}", bytes(front))
}

fn answers(run: &Run) -> Result<String, String> {
    let Some(mut rust) = Rust::open(&run.image)? else {
        // The Rust has one word for both: an image without a bank has no Valid one.
        let number = if run.image.len() < BANK { 1 } else { 4 };
        return Ok(format!("O {number}\nS 0 0 0 0 0\n"));
    };
    let mut tallies = Tallies::default();
    let mut out = format!("O 0\n{}", left(&rust, tallies)?);
    let mut book = run.opened().map_err(|number| format!("by 01 {number}"))?;
    for call in &run.calls {
        let said = book.answer(call);
        if !within(&book, &said) {
            return Err(format!("{call}: not in 01's domain"));
        }
        let answer = rust.answer(call)?;
        call.erases(&answer).into_iter().for_each(|caller| tallies.count(caller));
        out.push_str(&line(call, &answer)?);
        if matches!(answer, Answer::Number(_) | Answer::Commit(..)) {
            out.push_str(&left(&rust, tallies)?);
        }
    }
    Ok(out)
}

fn line(call: &Call, answer: &Answer) -> Result<String, String> {
    let named = format!("{} {}", call.typ, bytes(&call.key));
    Ok(match (&call.what, answer) {
        (What::Insert(manner, value), Answer::Number(number)) => {
            let letter = if *manner == Manner::Barrel { "J" } else { "I" };
            let value = repeated(value);
            format!("{letter} {named} {value} {number}\n")
        }
        (What::Remove, Answer::Number(number)) => format!("D {named} {number}\n"),
        (What::Lookup, Answer::Lookup(number, [found, place, length])) => {
            format!("L {named} {number} {found} {place} {length}\n")
        }
        (What::Value(_), Answer::Value(length, value)) if length <= &value.len() => {
            let crc = crc32fast::hash(&value[..*length]);
            format!("V {named} {length} {crc:08X}\n")
        }
        (_, Answer::Figures(number, [system, common, count])) => {
            format!("F {number} {system} {common} {count}\n")
        }
        (What::Commit(way, Caller(caller), _), Answer::Commit(number, requests, out)) => {
            let letter = if *way == Way::Careful { "K" } else { "C" };
            let [asked, at, offset, length] = requests;
            let crc = crc32fast::hash(&out[..*length as usize]);
            format!("{letter} {caller} {number} {asked} {at} {offset} {length} {crc:08X}\n")
        }
        (_, Answer::Whole(number, length, out)) => {
            let crc = crc32fast::hash(&out[..*length as usize]);
            format!("A {number} {length} {crc:08X}\n")
        }
        _ => return Err(format!("{call}: {answer}")),
    })
}

/// State and work area after an opening, an edit or a commit.
fn left(rust: &Rust, tallies: Tallies) -> Result<String, String> {
    let book = rust.book(tallies)?;
    let (state, [clock, barrel, total]) = (book.state(), tallies.told());
    let mut out = format!("S {} {} {clock} {barrel} {total}", state.n, state.active);
    for entry in &state.entries[..state.n as usize] {
        let _ = write!(out, " {} {} {}", entry.kind, entry.total, entry.usable);
    }
    let _ = write!(out, "\nW {:08X}\n", crc32fast::hash(&book.work()));
    Ok(out)
}

fn bytes(bytes: &[u8]) -> String {
    match bytes {
        [] => "-".to_string(),
        _ => bytes.iter().map(|b| format!("{b:02X}")).collect(),
    }
}

/// Many bytes of one value are that byte many times.
fn repeated(value: &[u8]) -> String {
    match value {
        [first, rest @ ..] if rest.len() > 8 && rest.iter().all(|b| b == first) => {
            format!("{} {first:02X}", value.len())
        }
        _ => format!("1 {}", bytes(value)),
    }
}

#[cfg(test)]
mod tests {
    use super::*;

    const KEPT: &str = include_str!("../../../../../crates/replay/stdin");

    #[test]
    fn the_list_in_the_repository_is_the_one_made_here() {
        let made = super::super::text().unwrap();
        let mut lines = made.lines().zip(KEPT.lines());
        assert_eq!(lines.find(|(made, kept)| made != kept), None);
        assert_eq!(made.len(), KEPT.len());
    }

    #[test]
    fn bytes_are_written_short() {
        assert_eq!((repeated(b""), repeated(b"abc")), ("1 -".into(), "1 616263".into()));
        assert_eq!(repeated(&[65; 70_000]), "70000 41");
        let mut image = vec![0xFF; BANK + 3];
        image[..2].copy_from_slice(&[1, 0xAB]);
        assert_eq!(image_lines(&image), "B FF 01AB\nT 3 FF -\n");
        assert_eq!(image_lines(&[0; BANK]), "B 00 -\nT 0 00 -\n");
    }
}
