//! What the Rust's store keeps private, as its Debug tells it.

use crate::partition::rust::leading;
use crate::store::lent::state::{EMPTY, INVALID, VALID};

/// The kind of every slot, the usable of every Valid bank, the active slot.
#[derive(Debug, PartialEq)]
pub struct Told {
    pub kinds: Vec<u32>,
    pub usable: Vec<u32>,
    pub active: usize,
}

impl Told {
    /// Reads Debug's text, in which a record's bytes are numbers and so are no words.
    pub fn read(text: &str) -> Result<Told, String> {
        let wrong = || format!("it tells {text}");
        let (slots, active) = text.rsplit_once("active: ").ok_or_else(wrong)?;
        let mut told = Told {
            kinds: Vec::new(),
            usable: Vec::new(),
            active: leading(active).ok_or_else(wrong)?,
        };
        for word in slots.split(['[', ']', ' ', ',']) {
            match word {
                "Empty" => told.kinds.push(EMPTY),
                "Invalid" => told.kinds.push(INVALID),
                "Valid(Partition" => told.kinds.push(VALID),
                _ => {}
            }
        }
        let ends = slots.split("empty_region_end: ").skip(1);
        told.usable = ends.map(leading).collect::<Option<_>>().ok_or_else(wrong)?;
        Ok(told)
    }
}

#[cfg(test)]
mod tests {
    use super::*;
    use image::{Header, Record, BANK};
    use oracle::v3;

    #[test]
    fn what_debug_tells_is_read() {
        let record = Record::live(b"rate", b"123456789");
        let valid = image::bank(&Header::default(), &[record]);
        let image = [vec![0; BANK], valid.clone(), vec![0xFF; BANK], valid, vec![0; BANK]].concat();
        let told = Told::read(&format!("{:?}", v3::Nvram::parse(&image).unwrap())).unwrap();
        assert_eq!(told.kinds, [INVALID, VALID, EMPTY, VALID, INVALID]);
        assert_eq!((told.usable, told.active), (vec![65_536; 2], 1));
        assert!(Told::read("Nvram").is_err());
    }
}
