//! Whether two banks hold the same settings, where they do and both are full.

use image::{Header, Record, BANK};
use oracle::v3;

use crate::case::{small, ROOM};
use crate::measure::{Contender, Report};
use crate::partition;

pub fn run(report: &mut Report) {
    report.say("two banks, call after call; the Rust reads both in one image");
    let contenders: [Contender; 3] = [
        ("Rust parse, then every field compared", &mut rust_same),
        ("port", &mut port_same),
        ("port parse, of each bank", &mut port_parse),
    ];
    let name = "same settings, full of small records";
    report.table_over_both(name, contenders, &banks(), (0.6, Some(1.3)));
}

/// The second has 255 in its reserved and closing bytes.
fn banks() -> Vec<u8> {
    let records = small(ROOM);
    let left = |record: &Record| Record { reserved: 255, closing: 255, ..record.clone() };
    let header = Header { reserved: 255, ..Header::default() };
    let others: Vec<Record> = records.iter().map(left).collect();
    [image::bank(&Header::default(), &records), image::bank(&header, &others)].concat()
}

fn port_same(banks: &[u8]) -> u32 {
    let (one, other) = banks.split_at(BANK);
    u32::from(feqyondil::same_settings(one, other) == Ok(true))
}

fn port_parse(banks: &[u8]) -> u32 {
    banks.chunks(BANK).map(partition::port_parse).fold(1, |all, valid| all & valid)
}

fn rust_same(banks: &[u8]) -> u32 {
    let Ok(store) = v3::Nvram::parse(banks) else {
        return 0;
    };
    let [one, other] = peek::valid_banks(&store)[..] else {
        return 0;
    };
    let same = named(&one.header) == named(&other.header)
        && one.values.len() == other.values.len()
        && one.values.iter().zip(&other.values).all(|(a, b)| is_same(a, b));
    u32::from(same)
}

fn named(header: &v3::StoreHeader) -> [u32; 6] {
    let (state, flags) = (header.state.into(), header.flags.into());
    [header.size, header.generation, state, flags, header.system_size, header.common_size]
}

fn is_same(a: &v3::Variable, b: &v3::Variable) -> bool {
    let (one, other) = (&a.header, &b.header);
    let fields = (one.state, one.attrs, one.guid) == (other.state, other.attrs, other.guid);
    fields && a.key == b.key && a.value == b.value
}

#[cfg(test)]
mod tests {
    use super::*;
    use image::HEADER;

    #[test]
    fn all_sides_answer_what_they_are_timed_for() {
        let (mut banks, records) = (banks(), small(ROOM));
        assert_ne!(banks[..BANK], banks[BANK..]);
        assert_eq!((rust_same(&banks), port_same(&banks), port_parse(&banks)), (1, 1, 1));
        let before = records[1..].iter().map(|record| record.bytes().len());
        let last = BANK + HEADER + before.sum::<usize>();
        banks[last + 2] = 0x7C;
        assert_eq!((rust_same(&banks), port_same(&banks), port_parse(&banks)), (0, 0, 1));
    }
}
