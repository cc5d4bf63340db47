//! Banks made from the layout's description, by no code of either side.

use std::fmt::{self, Debug, Formatter};

/// Bytes of a bank.
pub const BANK: usize = 65_536;
/// Bytes of a bank's header.
pub const HEADER: usize = 24;
/// Bytes of a record before its name.
pub const RECORD: usize = 36;
/// More bytes than these are counted, not printed.
const PRINTED: usize = 32;

pub const SYSTEM_GUID: [u8; 16] = [
    0x40, 0xA0, 0xDD, 0xD2, 0x77, 0xF8, 0x43, 0x92, 0xB4, 0xA3, 0x1E, 0x73, 0x04, 0x20, 0x65, 0x16,
];
pub const COMMON_GUID: [u8; 16] = [
    0x7C, 0x43, 0x61, 0x10, 0xAB, 0x2A, 0x4B, 0xBB, 0xA8, 0x80, 0xFE, 0x41, 0x99, 0x5C, 0x9F, 0x82,
];

/// A bank's header of good signature; by default a sound one of a whole bank.
#[derive(Clone, Debug, PartialEq)]
pub struct Header {
    pub size: u32,
    pub generation: u32,
    pub state: u8,
    pub flags: u8,
    pub version: u8,
    pub reserved: u8,
    pub system_limit: u32,
    pub common_limit: u32,
}

impl Default for Header {
    fn default() -> Self {
        Header {
            size: BANK as u32,
            generation: 1,
            state: 0xFE,
            flags: 0x5A,
            version: 1,
            reserved: 0,
            system_limit: 8192,
            common_limit: 8192,
        }
    }
}

impl Header {
    pub fn new(size: u32, generation: u32) -> Self {
        Header { size, generation, ..Header::default() }
    }

    pub fn bytes(&self) -> Vec<u8> {
        let mut out = b"3VVN".to_vec();
        out.extend(self.size.to_le_bytes());
        out.extend(self.generation.to_le_bytes());
        out.extend([self.state, self.flags, self.version, self.reserved]);
        out.extend(self.system_limit.to_le_bytes());
        out.extend(self.common_limit.to_le_bytes());
        out
    }
}

/// A record with its right lengths and checksum; by default a live system record, empty. Its bytes
/// are owned, lent or described.
#[derive(Clone, PartialEq)]
pub struct Record<B = Vec<u8>> {
    pub state: u8,
    pub reserved: u8,
    pub attributes: u32,
    pub guid: [u8; 16],
    pub key: B,
    pub closing: u8,
    pub value: B,
}

impl<B: Default> Default for Record<B> {
    fn default() -> Self {
        Record {
            state: 0x7F,
            reserved: 0,
            attributes: 0,
            guid: SYSTEM_GUID,
            key: B::default(),
            closing: 0,
            value: B::default(),
        }
    }
}

impl<B> Record<B> {
    /// The same with other bytes for key and value.
    pub fn map<C>(&self, bytes: impl Fn(&B) -> C) -> Record<C> {
        Record {
            state: self.state,
            reserved: self.reserved,
            attributes: self.attributes,
            guid: self.guid,
            key: bytes(&self.key),
            closing: self.closing,
            value: bytes(&self.value),
        }
    }
}

/// What a reader needs to see: bytes that have no say are left out where they are 0.
impl<B: Debug> Debug for Record<B> {
    fn fmt(&self, f: &mut Formatter) -> fmt::Result {
        let mut out = f.debug_struct("Record");
        match self.guid {
            SYSTEM_GUID => out.field("guid", &format_args!("system")),
            COMMON_GUID => out.field("guid", &format_args!("common")),
            other => out.field("guid", &format_args!("{:032x}", u128::from_be_bytes(other))),
        };
        out.field("state", &format_args!("{:#04x}", self.state))
            .field("key", &self.key)
            .field("value", &self.value);
        let rest = [
            ("attributes", self.attributes),
            ("reserved", self.reserved.into()),
            ("closing", self.closing.into()),
        ];
        for (name, number) in rest.iter().filter(|(_, number)| *number != 0) {
            out.field(name, &format_args!("{number:#x}"));
        }
        out.finish()
    }
}

impl Record {
    /// A live system record.
    pub fn live(key: &[u8], value: &[u8]) -> Self {
        Record { key: key.to_vec(), value: value.to_vec(), ..Record::default() }
    }

    pub fn bytes(&self) -> Vec<u8> {
        let mut out = 0x55AAu16.to_le_bytes().to_vec();
        out.extend([self.state, self.reserved]);
        out.extend(self.attributes.to_le_bytes());
        out.extend((self.key.len() as u32 + 1).to_le_bytes());
        out.extend((self.value.len() as u32).to_le_bytes());
        out.extend(self.guid);
        out.extend(crc32fast::hash(&self.value).to_le_bytes());
        out.extend(&self.key);
        out.push(self.closing);
        out.extend(&self.value);
        out
    }
}

/// The bank of this header and these records, and 0xFF after them.
pub fn bank(header: &Header, records: &[Record]) -> Vec<u8> {
    let mut out = header.bytes();
    records.iter().for_each(|r| out.extend(r.bytes()));
    out.resize(BANK, 0xFF);
    out
}

/// All bytes are 0xFF.
pub fn is_erased(bytes: &[u8]) -> bool {
    // In blocks of one length and without an early exit in them, which makes vector code.
    let all = |block: &[u8]| block.iter().fold(0xFF, |a, b| a & b) == 0xFF;
    let mut blocks = bytes.chunks_exact(1024);
    blocks.all(all) && all(blocks.remainder())
}

/// The little-endian number of four bytes at `at`.
pub fn number(bytes: &[u8], at: usize) -> u32 {
    let four = bytes[at..at + 4].try_into().expect("four bytes");
    u32::from_le_bytes(four)
}

/// Puts a little-endian number of four bytes at `at`.
pub fn put_number(bytes: &mut [u8], at: usize, number: u32) {
    bytes[at..at + 4].copy_from_slice(&number.to_le_bytes());
}

/// Bytes in hex, `-` for none; the front of many.
pub fn hex(bytes: &[u8]) -> String {
    let front = bytes.iter().take(PRINTED);
    let digits: String = front.map(|b| format!("{b:02x}")).collect();
    match bytes.len() {
        0 => "-".to_string(),
        len if len > PRINTED => format!("{digits}.. of {len} bytes"),
        _ => digits,
    }
}

#[cfg(test)]
mod tests {
    use super::*;

    #[test]
    fn a_bank_has_its_fields_at_their_places() {
        let made = bank(&Header::default(), &[Record::live(b"rate", b"123456789")]);
        assert_eq!((made.len(), &made[..4]), (BANK, &b"3VVN"[..]));
        assert_eq!((number(&made, 4), made[14]), (65_536, 1));
        assert_eq!((number(&made, 24 + 8), number(&made, 24 + 12)), (5, 9));
        assert_eq!(number(&made, 24 + 32), 0xCBF4_3926);
        assert_eq!(&made[60..74], b"rate\x00123456789");
        assert!(is_erased(&made[74..]) && !is_erased(&made[73..]));
    }

    #[test]
    fn a_byte_at_either_end_of_a_block_is_seen() {
        for len in [0, 1, 1023, 1024, 1025, 5000] {
            let mut bytes = vec![0xFF; len];
            assert!(is_erased(&bytes));
            for at in [0, 1023, 1024, len.saturating_sub(1)] {
                if let Some(byte) = bytes.get_mut(at) {
                    *byte = 0xFE;
                    assert!(!is_erased(&bytes), "{at} of {len}");
                    bytes[at] = 0xFF;
                }
            }
        }
    }
}
