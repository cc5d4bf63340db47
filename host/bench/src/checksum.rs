//! The checksum at the lengths of a value, of a few records and of a bank.

use crc32fast::hash;
use feqyondil::{Tables, CRC32_TABLE_ENTRIES};

use crate::bytewise;
use crate::measure::{Contender, Report};

const LENGTHS: [usize; 5] = [9, 64, 192, 1024, 65_536];

// Places in the list of contenders.
const SCALAR: usize = 0;
const BYTEWISE: usize = 2;
const PORT: usize = 3;
const LENT: usize = 4;

/// A length, a contender of the port and one of Rust, and the ratio to stay under.
const BARS: [(usize, usize, usize, f64); 3] =
    [(9, LENT, BYTEWISE, 1.5), (65_536, PORT, SCALAR, 1.15), (65_536, PORT, BYTEWISE, 0.2)];

pub fn run(report: &mut Report) {
    report.say("CRC-32 of one buffer, call after call, so its bytes are in cache");
    report.per_byte = true;
    let mut entries = Box::new([0; CRC32_TABLE_ENTRIES]);
    let tables = Tables::new(&mut entries);
    let contenders: &mut [Contender] = &mut [
        ("Rust crc32fast, scalar", &mut scalar),
        ("Rust crc32fast, SIMD where there is any", &mut hash),
        ("Rust byte at a time, static table", &mut bytewise::crc32),
        ("port, makes its tables", &mut feqyondil::crc32),
        ("port, tables lent", &mut |data| tables.crc32(data)),
    ];
    for len in LENGTHS {
        let title = format!("{len} bytes");
        let figures = report.table(&title, contenders, &mixed(len), None);
        for (_, port, rust, most) in BARS.into_iter().filter(|bar| bar.0 == len) {
            let name = format!("{title}, {} / {}", contenders[port].0, contenders[rust].0);
            report.bar(&name, &figures[port], &figures[rust], Some(most));
        }
    }
}

/// crc32fast without SIMD, by the constructor that its own benchmarks use.
pub fn scalar(data: &[u8]) -> u32 {
    let mut hasher = crc32fast::Hasher::internal_new_baseline(0, 0);
    hasher.update(data);
    hasher.finalize()
}

/// Bytes of many values.
pub fn mixed(len: usize) -> Vec<u8> {
    (0..len).map(|i| (i * 7 + i / 251) as u8).collect()
}
