//! The Rust's calls, which answer 1 if they did it; edits are undone after each.

use std::{borrow::Cow, hint::black_box, io, mem};

use image::BANK;
use oracle::{v3, Nvram, NvramWriter, Partition, VarType};

use crate::lent::VALUE;

/// A flash that is not there.
struct Nowhere;

impl NvramWriter for Nowhere {
    fn erase_if_needed(&mut self, offset: u32, size: usize) {
        black_box((offset, size));
    }

    fn write_all(&mut self, offset: u32, buf: &[u8]) -> io::Result<()> {
        black_box((offset, buf));
        Ok(())
    }
}

/// With what it allocates freed again, as every caller of it must.
pub fn rust_parse(image: &[u8]) -> u32 {
    u32::from(v3::Nvram::parse(image).is_ok())
}

pub fn rust_lookup(store: &mut v3::Nvram, key: &[u8]) -> u32 {
    let found = peek::active_bank(store).get_variable(key, VarType::System);
    u32::from(found.is_some())
}

/// Its sums and its number of records, by its Display: it tells them in no other way.
pub fn rust_figures(store: &mut v3::Nvram, _: &[u8]) -> u32 {
    let told = peek::active_bank(store).to_string();
    u32::from(!told.is_empty())
}

/// Inserts over the last record, commits if `COMMIT`, and takes the insert back.
pub fn rust_insert<const COMMIT: bool>(store: &mut v3::Nvram, key: &[u8]) -> u32 {
    let bank = peek::active_bank(store);
    bank.insert_variable(key, Cow::Borrowed(VALUE), VarType::System);
    let done = if COMMIT { rust_commit(store, key) } else { 1 };
    let bank = peek::active_bank(store);
    bank.values.pop();
    done & revive(bank)
}

pub fn rust_remove(store: &mut v3::Nvram, key: &[u8]) -> u32 {
    let bank = peek::active_bank(store);
    bank.remove_variable(key, VarType::System);
    revive(bank)
}

pub fn rust_commit(store: &mut v3::Nvram, _: &[u8]) -> u32 {
    u32::from(store.apply(&mut Nowhere).is_ok())
}

/// A dead record that claims a bank's length makes the bank move; it stays behind.
pub fn rust_move(store: &mut v3::Nvram, key: &[u8]) -> u32 {
    let mut dead = v3::Variable::default();
    dead.header.data_size = BANK as u32;
    peek::active_bank(store).values.push(dead);
    rust_commit(store, key)
}

pub fn rust_whole(store: &mut v3::Nvram, _: &[u8]) -> u32 {
    u32::from(store.serialize().is_ok())
}

/// The last record is live again; answers 1 if it was killed.
fn revive(bank: &mut v3::Partition) -> u32 {
    let last = bank.values.last_mut().expect("a record");
    u32::from(mem::replace(&mut last.header.state, 0x7F) == 0x7C)
}
