//! The banks inside the Rust's store with their public fields, which its trait hides.
//! The oracle is built unchanged, so they are seen from outside.

use oracle::{v3, Nvram, Partition};

/// The Valid banks, in the image's order.
pub fn valid_banks<'s, 'a>(store: &'s v3::Nvram<'a>) -> Vec<&'s v3::Partition<'a>> {
    let banks = Nvram::partitions(store).map(|bank| {
        let bank: *const (dyn Partition<'a> + 's) = bank;
        // SAFETY: a `v3::Nvram` lends the `v3::Partition`s that it holds and nothing else,
        // so this is the type behind the pointer; it lives as long as the store is lent.
        unsafe { &*bank.cast::<v3::Partition<'a>>() }
    });
    banks.collect()
}

/// The active bank, which is to be Valid: else the Rust panics.
pub fn active_bank<'s, 'a>(store: &'s mut v3::Nvram<'a>) -> &'s mut v3::Partition<'a> {
    let bank: *mut (dyn Partition<'a> + 's) = store.active_part_mut();
    // SAFETY: as above, and the store is lent for writing as long as the bank is.
    unsafe { &mut *bank.cast::<v3::Partition<'a>>() }
}

/// Which of the bank's records `found` is: the Rust lends one of those that it holds.
pub fn place<'a>(bank: &v3::Partition<'a>, found: &dyn oracle::Variable<'a>) -> Option<usize> {
    let found: *const dyn oracle::Variable<'a> = found;
    let found: *const v3::Variable<'a> = found.cast();
    bank.values.iter().position(|v| std::ptr::eq(v, found))
}

#[cfg(test)]
mod tests {
    use super::*;
    use image::{Header, Record};
    use oracle::VarType;

    #[test]
    fn the_banks_are_seen() {
        let header = |generation| Header { generation, ..Header::default() };
        let records = [Record::live(b"a", b"1"), Record::live(b"b", b"2")];
        let first = image::bank(&header(3), &[]);
        let image = [first, image::bank(&header(7), &records)].concat();
        let mut store = v3::Nvram::parse(&image).unwrap();
        let generations = valid_banks(&store).into_iter().map(|b| b.header.generation);
        assert_eq!(generations.collect::<Vec<_>>(), [3, 7]);
        let active = active_bank(&mut store);
        assert_eq!((active.header.generation, active.values.len()), (7, 2));
        let found = active.get_variable(b"b", VarType::System).unwrap();
        assert_eq!(place(active, found), Some(1));
    }
}
