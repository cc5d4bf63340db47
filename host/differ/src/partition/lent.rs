//! The port's reading of a bank: both calls and all that they are to leave alone, and the call that
//! says why reading stopped.

use feqyondil::{partition_parse, partition_serialize, Cause};
use image::{is_erased, Header, BANK};

use super::cause::PortCause;
use super::slot::Slot;
use super::{written, Read};

/// Bytes before and after the part that nobody lent.
pub const GUARD: usize = 64;
/// What the part and its guards hold before a call.
const BEFORE: u8 = 0xA5;

/// How the bank and the part are lent; it must not matter.
#[derive(Clone, Copy, Debug)]
pub struct Lending {
    /// Bytes before the image in its buffer.
    pub start: usize,
    /// Bytes lent to read from: the bank and what follows it.
    pub nvr: usize,
    /// Bytes lent to write to.
    pub part: usize,
    /// A length that is short of a bank.
    pub short: usize,
}

/// How the port reads the first bank of `image`; what it writes stays in `buffer`.
pub fn read<'a>(image: &[u8], how: Lending, buffer: &'a mut Vec<u8>) -> Read<'a> {
    buffer.clear();
    buffer.resize(how.part + 2 * GUARD, BEFORE);
    short_calls(image, how, &mut buffer[GUARD..GUARD + how.part])?;
    untouched(buffer)?;
    let parsed = partition_parse(&image[..how.nvr]);
    if parsed != partition_parse(&image[..BANK]) {
        return Err("bytes behind the bank have a say in it".to_string());
    }
    let part = GUARD..GUARD + how.part;
    let written = partition_serialize(&image[..how.nvr], &mut buffer[part.clone()]);
    if written != parsed {
        return Err(format!("its two calls answer {parsed:?} and {written:?}"));
    }
    untouched(&buffer[..GUARD])?;
    untouched(&buffer[part.end..])?;
    view(parsed, &buffer[part])
}

/// Which cause the port names of the first bank of `image`; of too few bytes it is Short.
pub fn cause(port: PortCause, image: &[u8], how: Lending) -> Result<Cause, String> {
    match port(&image[..how.short]) {
        Cause::Short => Ok(port(&image[..how.nvr])),
        other => Err(format!("{other}, with {} bytes", how.short)),
    }
}

/// Calls with too few bytes are Short and leave the part as it was.
fn short_calls(image: &[u8], how: Lending, part: &mut [u8]) -> Result<(), String> {
    let answers = [
        partition_parse(&image[..how.short]),
        partition_serialize(&image[..how.short], part),
        partition_serialize(&image[..how.nvr], &mut part[..how.short]),
    ];
    if answers == [feqyondil::Slot::Short; 3] {
        return Ok(());
    }
    Err(format!("with {} bytes it answers {answers:?}", how.short))
}

fn untouched(bytes: &[u8]) -> Result<(), String> {
    // A piece at a time, so that it is quick over a whole part.
    let same = |piece: &[u8]| piece.iter().fold(true, |same, &b| same & (b == BEFORE));
    if bytes.chunks(64).all(same) {
        return Ok(());
    }
    Err("it wrote where it was not to".to_string())
}

fn view(slot: feqyondil::Slot, part: &[u8]) -> Read<'_> {
    let bank = match slot {
        feqyondil::Slot::Short => return Err("it answers Short".to_string()),
        feqyondil::Slot::Empty => return erased(part, Slot::Empty),
        feqyondil::Slot::Invalid => return erased(part, Slot::Invalid),
        feqyondil::Slot::Valid(bank) => bank,
    };
    let told = Header {
        size: bank.size,
        generation: bank.generation,
        state: bank.state,
        flags: bank.flags,
        system_limit: bank.system_limit,
        common_limit: bank.common_limit,
        ..Header::default()
    };
    let bank = written::read(part, bank.total, bank.usable)?;
    match bank.header == told {
        true => Ok(Slot::Valid(bank)),
        false => Err(format!("it writes {:?} and answers {told:?}", bank.header)),
    }
}

fn erased<'a>(part: &[u8], slot: Slot<&'a [u8]>) -> Read<'a> {
    if is_erased(part) {
        return Ok(slot);
    }
    Err(format!("it answers {slot} and writes something"))
}

#[cfg(test)]
mod tests {
    use super::*;

    #[test]
    fn a_touched_byte_is_seen() {
        let mut guard = [BEFORE; GUARD];
        assert!(untouched(&guard).is_ok());
        guard[GUARD - 1] ^= 1;
        assert!(untouched(&guard).is_err());
    }

    #[test]
    fn a_part_that_is_not_as_answered_is_seen() {
        let mut part = image::bank(&Header::default(), &[]);
        let answered = partition_parse(&part);
        assert!(view(answered, &part).is_ok());
        assert!(view(feqyondil::Slot::Empty, &part).is_err());
        assert!(view(feqyondil::Slot::Short, &part).is_err());
        part[8] = 2; // the generation
        assert!(view(answered, &part).is_err());
    }
}
