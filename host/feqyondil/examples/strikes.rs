use feqyondil::{Caller, Commit, Refusal, Store, VarType, BANK_SIZE, PART_SIZE};

/// The erase, if there is one; then the bytes that differ, from the last to the first.
fn carry_out(flash: &mut [u8], commit: Commit) {
    if let Some(offset) = commit.erase {
        flash[offset..offset + BANK_SIZE].fill(0xFF);
    }
    let bank = &mut flash[commit.offset..][..commit.bytes.len()];
    for (byte, new) in bank.iter_mut().zip(commit.bytes).rev() {
        if byte != new {
            *byte &= new;
        }
    }
}

fn main() -> Result<(), Refusal> {
    let mut flash = [0xFF; 2 * BANK_SIZE];
    flash[..24].copy_from_slice(b"3VVN\0\0\x01\0\x01\0\0\0\0\0\x01\0\xF4\x0F\0\0\xF4\x0F\0\0");
    let (mut work, mut output) = ([0; 2 * PART_SIZE], [0; BANK_SIZE]);
    for boot in 1..=3 {
        let mut count = [0];
        let mut store = Store::open(&flash, &mut work)?;
        store.value(b"strikes", VarType::System, &mut count);
        count[0] += 1;
        store.insert(b"strikes", &count, VarType::System)?;
        let commit = store.careful_commit(Caller::Clock, &mut output)?;
        carry_out(&mut flash, commit);
        println!("boot {boot}: {} strikes", count[0]);
    }
    Ok(())
}
