//! Reading a bank, from nearly empty to full.

use image::{Header, Record, BANK};
use oracle::{v3, Nvram};

use crate::case::{one, small, ROOM};
use crate::checksum::{mixed, scalar};
use crate::measure::{Contender, Report};
use crate::trusting::rust_parse;

/// Name, records, and what the port is to stay under, over the Rust.
fn cases() -> [(&'static str, Vec<Record>, Option<f64>); 3] {
    [
        ("nearly empty", one(), Some(0.5)),
        ("half full of small records", small(ROOM / 2), None),
        ("full of small records", small(ROOM), Some(1.2)),
    ]
}

pub fn run(report: &mut Report) {
    report.say("one bank, call after call");
    let (mut part, value) = (vec![0; BANK], mixed(65_000));
    let mut serialize = |bank: &[u8]| is_valid(feqyondil::partition_serialize(bank, &mut part));
    let mut simd = |_: &[u8]| crc32fast::hash(&value);
    let mut scalar = |_: &[u8]| scalar(&value);
    let contenders: &mut [Contender] = &mut [
        ("Rust parse", &mut rust_parse),
        ("port parse", &mut port_parse),
        ("Rust parse and serialize", &mut rust_serialize),
        ("port serialize, which parses", &mut serialize),
        ("Rust crc32fast, SIMD, value alone", &mut simd),
        ("Rust crc32fast, scalar, value alone", &mut scalar),
    ];
    for (name, records, most) in cases() {
        let bank = image::bank(&Header::default(), &records);
        report.table(name, &mut contenders[..4], &bank, most);
    }
    let name = "one large record";
    let bank = image::bank(&Header::default(), &[Record::live(b"", &value)]);
    let figures = report.table(name, contenders, &bank, None);
    let (rust, port, simd, scalar) = (&figures[0], &figures[1], &figures[4], &figures[5]);
    report.bar(name, port, rust, None);
    // What SIMD saves the Rust's checksum is put back on its time, and there the bar is.
    let share = scalar.with(simd, |a, b| a - b);
    let saved = share.median();
    let name = format!("{name}, with the {saved:.1} ns that SIMD saves the Rust");
    let rust = rust.with(&share, |a, b| a + b);
    report.bar(&name, port, &rust, Some(1.2));
}

pub fn port_parse(bank: &[u8]) -> u32 {
    is_valid(feqyondil::partition_parse(bank))
}

fn rust_serialize(bank: &[u8]) -> u32 {
    let written = v3::Nvram::parse(bank).and_then(|store| store.serialize());
    written.map_or(0, |bytes| bytes.len() as u32)
}

fn is_valid(slot: feqyondil::Slot) -> u32 {
    u32::from(matches!(slot, feqyondil::Slot::Valid(_)))
}

#[cfg(test)]
mod tests {
    use super::*;

    #[test]
    fn both_sides_read_the_banks() {
        for (name, records, _) in cases() {
            let bank = image::bank(&Header::default(), &records);
            assert_eq!((rust_parse(&bank), port_parse(&bank)), (1, 1), "{name}");
            assert_eq!(rust_serialize(&bank), BANK as u32);
        }
    }
}
