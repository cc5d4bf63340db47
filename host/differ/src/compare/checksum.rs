//! The checksum: both forms of the port against crc32fast.

use std::cell::RefCell;

use feqyondil::{Tables, CRC32_TABLE_ENTRIES};
use proptest::prelude::*;

use crate::describe::{content, Bytes};
use crate::judge::{Comparison, Mode, Numbers, Part};

/// Longest input: the work area of one bank.
const LONGEST: usize = 131_072;
/// Every length up to this one is tried, which is past each boundary of the fast form many times.
const EACH_LENGTH: usize = 4096;
/// Where an input starts in memory is said modulo this.
const ALIGNMENT: usize = 64;

type Sum = Box<dyn Fn(&[u8]) -> u32>;

pub struct Checksum {
    /// The port's forms.
    forms: [(&'static str, Sum); 2],
    buffer: RefCell<Vec<u8>>,
}

/// Bytes, and where they start in memory.
#[derive(Clone, Debug)]
pub struct Input {
    pub start: usize,
    pub bytes: Bytes,
}

impl Checksum {
    pub fn new() -> Self {
        let tables = Tables::new(Box::leak(Box::new([0; CRC32_TABLE_ENTRIES])));
        Checksum::of(move |data| tables.crc32(data))
    }

    /// With such a form for lent tables.
    pub fn of(lent: impl Fn(&[u8]) -> u32 + 'static) -> Self {
        let buffer = RefCell::new(vec![0xA5; LONGEST + 3 * ALIGNMENT]);
        let forms: [(_, Sum); 2] = [
            ("making its tables", Box::new(feqyondil::crc32)),
            ("with lent tables", Box::new(lent)),
        ];
        Checksum { forms, buffer }
    }
}

impl Comparison for Checksum {
    type Input = Input;
    type Counts = Numbers;
    const NAME: &'static str = "checksum";

    fn parts(&self, mode: Mode) -> Vec<Part<Input>> {
        let short = mode.pick(2, 3, 0);
        let numbers = (0..=short).flat_map(|len| (0..1u32 << (8 * len)).map(move |n| (len, n)));
        let exhaustive = numbers.map(|(len, n)| at_start(Bytes::of(&n.to_le_bytes()[..len])));
        let lengths = (0..=EACH_LENGTH).flat_map(|len| {
            let seed = len as u64;
            let bytes = [Bytes::Fill(len, 0), Bytes::Fill(len, 0xFF), Bytes::Random(len, seed)];
            bytes.map(at_start)
        });
        vec![
            Part::each(format!("every input of 0 to {short} bytes"), exhaustive),
            Part::each(format!("every length from 0 to {EACH_LENGTH}"), lengths),
            Part::each("the longest", [at_start(Bytes::Random(LONGEST, 1))].into_iter()),
            Part::drawn("any length at any start", mode.pick(80_000, 1_250_000, 0), random()),
        ]
    }

    fn compare(&self, input: &Input) -> Result<Numbers, String> {
        let bytes = input.bytes.made();
        let mut buffer = self.buffer.borrow_mut();
        let from = ALIGNMENT - buffer.as_ptr() as usize % ALIGNMENT + input.start;
        let placed = &mut buffer[from..from + bytes.len()];
        placed.copy_from_slice(&bytes);
        let rust = crc32fast::hash(placed);
        match self.forms.iter().find(|(_, form)| form(placed) != rust) {
            None => Ok(Numbers::of(&[("inputs, both forms equal", 1)])),
            Some((name, form)) => {
                let port = form(placed);
                Err(format!("  Rust: {rust:08x}\n  port: {port:08x}, {name}"))
            }
        }
    }
}

fn at_start(bytes: Bytes) -> Input {
    Input { start: 0, bytes }
}

/// A value of the store is short far more often than it is a whole bank.
pub fn random() -> impl Strategy<Value = Input> {
    let len = prop_oneof![2 => 0..64usize, 1 => 0..1024usize, 2 => 0..=LONGEST];
    (0..ALIGNMENT, content(len)).prop_map(|(start, bytes)| Input { start, bytes })
}
