//! The lookup that the port's is held against: the same comparisons over the same bytes, in
//! blocks, with the port's checksum. Whatever is not sound is refused, as the port does.

use feqyondil::state::{
    Kind, ENTRY_KIND, ENTRY_SIZE, ENTRY_TOTAL, ENTRY_USABLE, STATE_ACTIVE, STATE_BANKS,
    STATE_ENTRIES,
};
use feqyondil::{Tables, BANKS_MAX, PART_SIZE, STATE_SIZE};
use image::{is_erased, number, BANK, HEADER, RECORD, SYSTEM_GUID};

const VALID: u32 = Kind::Valid as u32;

/// Place and length of the first live value; `Err` with a refusal's number.
#[inline(never)]
pub fn lookup(
    tables: &Tables,
    state: &[u8],
    work: &[u8],
    key: &[u8],
    system: bool,
) -> Result<Option<(usize, usize)>, u32> {
    if !is_sound(tables, state, work) {
        return Err(6);
    }
    let active = number(state, STATE_ACTIVE) as usize;
    let [kind, total, _] = entry(state, active);
    if kind != VALID {
        return Err(7);
    }
    let at = active * PART_SIZE;
    let found = find(&work[at..at + total as usize], key, system);
    Ok(found.map(|(place, length)| (at + place, length)))
}

fn entry(state: &[u8], i: usize) -> [u32; 3] {
    let at = STATE_ENTRIES + ENTRY_SIZE * i;
    [ENTRY_KIND, ENTRY_TOTAL, ENTRY_USABLE].map(|field| number(state, at + field))
}

fn is_sound(tables: &Tables, state: &[u8], work: &[u8]) -> bool {
    if state.len() < STATE_SIZE {
        return false;
    }
    let (n, active) = (number(state, STATE_BANKS) as usize, number(state, STATE_ACTIVE) as usize);
    if !(1..=BANKS_MAX).contains(&n) || active >= n || work.len() < n * PART_SIZE {
        return false;
    }
    (0..BANKS_MAX).all(|i| match entry(state, i) {
        entry if i >= n => entry == [0, 0, 0],
        [0 | 1, 0, 0] => is_erased(&work[i * PART_SIZE..(i + 1) * PART_SIZE]),
        [VALID, total, usable] => {
            let part = &work[i * PART_SIZE..(i + 1) * PART_SIZE];
            is_bank(tables, part, total as usize, usable as usize)
        }
        _ => false,
    })
}

fn is_bank(tables: &Tables, part: &[u8], total: usize, usable: usize) -> bool {
    let size = number(part, 4) as usize;
    let header = part[..4] == *b"3VVN" && part[14..16] == [1, 0];
    let figures = (HEADER..=BANK).contains(&size) && (HEADER..=size).contains(&usable);
    if !header || !figures || !(HEADER..=PART_SIZE).contains(&total) {
        return false;
    }
    let mut at = HEADER;
    while at < total {
        match record(tables, &part[at..total]) {
            Some(len) => at += len,
            None => return false,
        }
    }
    is_erased(&part[total..])
}

/// The length of the sound record at the front.
fn record(tables: &Tables, rest: &[u8]) -> Option<usize> {
    let head = rest.get(..RECORD)?;
    let (name, value) = (number(head, 8) as usize, number(head, 12) as usize);
    let len = RECORD + name + value;
    let fixed = head[..2] == [0xAA, 0x55] && head[3] == 0 && name > 0;
    if !fixed || len > rest.len() || rest[RECORD + name - 1] != 0 {
        return None;
    }
    let crc = tables.crc32(&rest[RECORD + name..len]);
    (crc == number(head, 32)).then_some(len)
}

fn find(used: &[u8], key: &[u8], system: bool) -> Option<(usize, usize)> {
    let mut at = HEADER;
    while at < used.len() {
        let (name, value) = (number(used, at + 8) as usize, number(used, at + 12) as usize);
        let place = at + RECORD + name;
        let live = used[at + 2] == 0x7F;
        let kind = (used[at + 16..at + 32] == SYSTEM_GUID) == system;
        if live && kind && used[at + RECORD..place - 1] == *key {
            return Some((place, value));
        }
        at = place + value;
    }
    None
}

#[cfg(test)]
mod tests {
    use super::*;
    use feqyondil::{Store, VarType, CRC32_TABLE_ENTRIES};
    use image::{Header, Record};

    fn store(work: &mut [u8]) -> Store<'_> {
        let records = [Record::live(b"a", b"1"), Record::live(b"rate", b"12345")];
        let bank = image::bank(&Header::default(), &records);
        let image = [bank, vec![0xFF; BANK], vec![0; BANK]].concat();
        Store::open(&image, work).unwrap()
    }

    #[test]
    fn it_finds_what_the_port_finds() {
        let (mut entries, mut work) = ([0; CRC32_TABLE_ENTRIES], vec![0; 3 * PART_SIZE]);
        let (tables, store) = (Tables::new(&mut entries), store(&mut work));
        for (key, system) in [("rate", true), ("a", true), ("a", false), ("", true)] {
            let typ = [VarType::Common, VarType::System][usize::from(system)];
            let found = lookup(&tables, store.state(), store.work(), key.as_bytes(), system);
            let port = store.find(key.as_bytes(), typ).unwrap();
            assert_eq!(found, Ok(port.map(|place| (place.start, place.len()))));
        }
    }

    #[test]
    fn it_looks_at_every_byte_that_has_no_say() {
        let (mut entries, mut work) = ([0; CRC32_TABLE_ENTRIES], vec![0; 3 * PART_SIZE]);
        let (tables, store) = (Tables::new(&mut entries), store(&mut work));
        let refused =
            |state: &[u8], work: &[u8]| lookup(&tables, state, work, b"a", true) == Err(6);
        let ends = [1, 2, 3].map(|parts| parts * PART_SIZE - 1);
        for at in [0, 15, 27, 32, 61, 62, PART_SIZE].into_iter().chain(ends) {
            let mut work = store.work().to_vec();
            work[at] ^= 1;
            assert!(refused(store.state(), &work));
        }
        for at in [0, 4, 16, 20, 28, 32, 52, 207] {
            let mut state = *store.state();
            state[at] ^= 0x10;
            assert!(refused(&state, store.work()));
        }
        assert!(refused(&store.state()[1..], store.work()));
        assert!(refused(store.state(), &store.work()[1..]));
    }
}
