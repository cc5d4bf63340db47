//! Calls and answers in words.

use std::fmt::{self, Display, Formatter};

use image::hex;

use super::{Answer, Call, Caller, Manner, Way, What};

impl Display for Call {
    fn fmt(&self, f: &mut Formatter) -> fmt::Result {
        match &self.what {
            What::Commit(way, Caller(number), room) => {
                let careful = if *way == Way::Careful { "careful " } else { "" };
                return write!(f, "{careful}commit by caller {number} with room for {room}");
            }
            What::Whole(room) => return write!(f, "whole image with room for {room}"),
            What::Figures => return write!(f, "figures"),
            What::Tally => return write!(f, "tally"),
            What::Insert(Manner::Plain, value) => write!(f, "insert of {}", hex(value))?,
            What::Insert(Manner::Barrel, value) => write!(f, "barrel insert of {}", hex(value))?,
            What::Remove => write!(f, "remove")?,
            What::Lookup => write!(f, "lookup")?,
            What::Value(room) => write!(f, "value with room for {room}")?,
        }
        write!(f, ", key {}, type {}", hex(&self.key), self.typ)
    }
}

impl Display for Answer {
    fn fmt(&self, f: &mut Formatter) -> fmt::Result {
        match self {
            Answer::Number(number) => write!(f, "{number}"),
            Answer::Lookup(number, [found, place, length]) => {
                write!(f, "{number}, found {found}, place {place}, length {length}")
            }
            Answer::Value(length, out) => write!(f, "length {length}, room {}", hex(out)),
            Answer::Figures(number, [system, common, count]) => {
                write!(f, "{number}, system {system}, common {common}, {count} records")
            }
            Answer::Commit(number, [asked, at, offset, length], out) => {
                write!(f, "{number}, erase {asked} at {at}, write at {offset}, ")?;
                write!(f, "length {length}, output {}", hex(out))
            }
            Answer::Whole(number, length, out) => {
                write!(f, "{number}, length {length}, output {}", hex(out))
            }
            Answer::Tally(number, [clock, barrel, total]) => {
                write!(f, "{number}, clock {clock}, barrel {barrel}, total {total}")
            }
        }
    }
}

#[cfg(test)]
mod tests {
    use super::*;

    #[test]
    fn calls_are_printed() {
        let text = Call::insert(b"", &[1; 40], 9).to_string();
        assert!(text.starts_with("insert of 0101"), "{text}");
        assert!(text.ends_with(".. of 40 bytes, key -, type 9"), "{text}");
        let text = Call::barrel(b"k", &[1], 0).to_string();
        assert_eq!(text, "barrel insert of 01, key 6b, type 0");
        assert_eq!(Call::commit(7).to_string(), "commit by caller 0 with room for 7");
        let careful = Call::careful(7).by(Caller::BARREL).to_string();
        assert_eq!(careful, "careful commit by caller 1 with room for 7");
    }
}
