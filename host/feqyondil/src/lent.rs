//! The store's calls on lent bytes, with the numbers that they answer; [`rate`] has those on rates.
//!
//! [`Store`](crate::Store) is what a program uses. These take any bytes at all, refuse what is not
//! sound, and do as include/feqyondil.h says.

pub mod rate;

extern "C" {
    fn feqyondil_open(
        image: *const u8,
        image_len: usize,
        state: *mut u8,
        state_len: usize,
        work: *mut u8,
        work_len: usize,
    ) -> u32;
    fn feqyondil_tally(state: *const u8, state_len: usize, tally: *mut [u64; 3]) -> u32;
    fn feqyondil_insert(
        state: *mut u8,
        state_len: usize,
        work: *mut u8,
        work_len: usize,
        key: *const u8,
        key_len: usize,
        value: *const u8,
        value_len: usize,
        typ: u32,
    ) -> u32;
    fn feqyondil_barrel_insert(
        state: *mut u8,
        state_len: usize,
        work: *mut u8,
        work_len: usize,
        key: *const u8,
        key_len: usize,
        value: *const u8,
        value_len: usize,
        typ: u32,
    ) -> u32;
    fn feqyondil_remove(
        state: *const u8,
        state_len: usize,
        work: *mut u8,
        work_len: usize,
        key: *const u8,
        key_len: usize,
        typ: u32,
    ) -> u32;
    fn feqyondil_lookup(
        state: *const u8,
        state_len: usize,
        work: *const u8,
        work_len: usize,
        key: *const u8,
        key_len: usize,
        typ: u32,
        found: *mut [u64; 3],
    ) -> u32;
    fn feqyondil_value(
        state: *const u8,
        state_len: usize,
        work: *const u8,
        work_len: usize,
        key: *const u8,
        key_len: usize,
        typ: u32,
        out: *mut u8,
        out_len: usize,
    ) -> usize;
    fn feqyondil_figures(
        state: *const u8,
        state_len: usize,
        work: *const u8,
        work_len: usize,
        figures: *mut [u64; 3],
    ) -> u32;
    fn feqyondil_commit(
        state: *mut u8,
        state_len: usize,
        work: *mut u8,
        work_len: usize,
        output: *mut u8,
        output_len: usize,
        caller: u32,
        requests: *mut [u64; 4],
    ) -> u32;
    fn feqyondil_careful_commit(
        state: *mut u8,
        state_len: usize,
        work: *mut u8,
        work_len: usize,
        output: *mut u8,
        output_len: usize,
        caller: u32,
        requests: *mut [u64; 4],
    ) -> u32;
    fn feqyondil_whole_image(
        state: *const u8,
        state_len: usize,
        work: *const u8,
        work_len: usize,
        output: *mut u8,
        output_len: usize,
        length: *mut [u64; 1],
    ) -> u32;
}

// SAFETY: of each call below, every pointer and length are those of one live slice; what the
// library writes is lent for writing, so it is apart from everything else that is lent; an
// array has the length that the library writes.

/// Opens `image`: 0, or a refusal from 1 to 4; 6 where `state` is too short.
pub fn open(image: &[u8], state: &mut [u8], work: &mut [u8]) -> u32 {
    let (image, image_len) = (image.as_ptr(), image.len());
    let (state, state_len) = (state.as_mut_ptr(), state.len());
    let (work, work_len) = (work.as_mut_ptr(), work.len());
    // SAFETY: as above.
    unsafe { feqyondil_open(image, image_len, state, state_len, work, work_len) }
}

/// Tells the tallies: 0, or 6 where `state` holds no state; `tally` becomes the erase requests in the
/// clock's commits, those in the barrel's, and their sum, each up to 4,294,967,295.
pub fn tally(state: &[u8], tally: &mut [u64; 3]) -> u32 {
    let (state, state_len) = (state.as_ptr(), state.len());
    // SAFETY: as above.
    unsafe { feqyondil_tally(state, state_len, tally) }
}

/// Inserts a record of type `typ`, 0 for Common: 0, 6, 7 or 8.
pub fn insert(state: &mut [u8], work: &mut [u8], key: &[u8], value: &[u8], typ: u32) -> u32 {
    insert_by(feqyondil_insert, state, work, key, value, typ)
}

/// The same, but a value over 512 bytes is refused: 0, 6, 7, 15 or 8.
pub fn barrel_insert(state: &mut [u8], work: &mut [u8], key: &[u8], value: &[u8], typ: u32) -> u32 {
    insert_by(feqyondil_barrel_insert, state, work, key, value, typ)
}

type InsertCall = unsafe extern "C" fn(
    *mut u8,
    usize,
    *mut u8,
    usize,
    *const u8,
    usize,
    *const u8,
    usize,
    u32,
) -> u32;

fn insert_by(
    call: InsertCall,
    state: &mut [u8],
    work: &mut [u8],
    key: &[u8],
    value: &[u8],
    typ: u32,
) -> u32 {
    let (state, state_len) = (state.as_mut_ptr(), state.len());
    let (work, work_len) = (work.as_mut_ptr(), work.len());
    let (key, key_len) = (key.as_ptr(), key.len());
    let (value, value_len) = (value.as_ptr(), value.len());
    // SAFETY: as above; the call is one of the two inserts.
    unsafe { call(state, state_len, work, work_len, key, key_len, value, value_len, typ) }
}

/// Removes the live records of `key` and `typ`: 0, 6 or 7. The state stays as it is.
pub fn remove(state: &[u8], work: &mut [u8], key: &[u8], typ: u32) -> u32 {
    let (state, state_len) = (state.as_ptr(), state.len());
    let (work, work_len) = (work.as_mut_ptr(), work.len());
    let (key, key_len) = (key.as_ptr(), key.len());
    // SAFETY: as above.
    unsafe { feqyondil_remove(state, state_len, work, work_len, key, key_len, typ) }
}

/// Looks a value up: 0, 6 or 7; `found` becomes 1 or 0, its place in `work`, its length.
pub fn lookup(state: &[u8], work: &[u8], key: &[u8], typ: u32, found: &mut [u64; 3]) -> u32 {
    let (state, state_len) = (state.as_ptr(), state.len());
    let (work, work_len) = (work.as_ptr(), work.len());
    let (key, key_len) = (key.as_ptr(), key.len());
    // SAFETY: as above.
    unsafe { feqyondil_lookup(state, state_len, work, work_len, key, key_len, typ, found) }
}

/// The value's length, 0 where there is none; the value goes over `out` as far as it reaches.
pub fn value(state: &[u8], work: &[u8], key: &[u8], typ: u32, out: &mut [u8]) -> usize {
    let (state, state_len) = (state.as_ptr(), state.len());
    let (work, work_len) = (work.as_ptr(), work.len());
    let (key, key_len) = (key.as_ptr(), key.len());
    let (out, out_len) = (out.as_mut_ptr(), out.len());
    // SAFETY: as above.
    unsafe { feqyondil_value(state, state_len, work, work_len, key, key_len, typ, out, out_len) }
}

/// Sums the active bank's records up: 0, 6 or 7; `figures` becomes the bytes of live system records,
/// those of live common ones, and how many records there are, dead ones too.
pub fn figures(state: &[u8], work: &[u8], figures: &mut [u64; 3]) -> u32 {
    let (state, state_len) = (state.as_ptr(), state.len());
    let (work, work_len) = (work.as_ptr(), work.len());
    // SAFETY: as above.
    unsafe { feqyondil_figures(state, state_len, work, work_len, figures) }
}

/// Commits for `caller`, 0 for the clock: 0, 5, 6, 7, or 9 to 12. `requests` becomes whether a bank is
/// to be erased (1 or 0) and its offset, then the offset and the length of the write, whose bytes
/// `output` begins with.
pub fn commit(
    state: &mut [u8],
    work: &mut [u8],
    output: &mut [u8],
    caller: u32,
    requests: &mut [u64; 4],
) -> u32 {
    commit_by(feqyondil_commit, state, work, output, caller, requests)
}

/// The same, but 12 comes before the move: after any refusal `requests` is all 0, and nothing else
/// has changed.
pub fn careful_commit(
    state: &mut [u8],
    work: &mut [u8],
    output: &mut [u8],
    caller: u32,
    requests: &mut [u64; 4],
) -> u32 {
    commit_by(feqyondil_careful_commit, state, work, output, caller, requests)
}

type CommitCall =
    unsafe extern "C" fn(*mut u8, usize, *mut u8, usize, *mut u8, usize, u32, *mut [u64; 4]) -> u32;

fn commit_by(
    call: CommitCall,
    state: &mut [u8],
    work: &mut [u8],
    output: &mut [u8],
    caller: u32,
    requests: &mut [u64; 4],
) -> u32 {
    let (state, state_len) = (state.as_mut_ptr(), state.len());
    let (work, work_len) = (work.as_mut_ptr(), work.len());
    let (output, output_len) = (output.as_mut_ptr(), output.len());
    // SAFETY: as above; the call is one of the two commits.
    unsafe { call(state, state_len, work, work_len, output, output_len, caller, requests) }
}

/// Joins the Valid banks in `output`: 0, 5, 6 or 13; `length` becomes how many bytes they are.
pub fn whole_image(state: &[u8], work: &[u8], output: &mut [u8], length: &mut [u64; 1]) -> u32 {
    let (state, state_len) = (state.as_ptr(), state.len());
    let (work, work_len) = (work.as_ptr(), work.len());
    let (output, output_len) = (output.as_mut_ptr(), output.len());
    // SAFETY: as above.
    unsafe { feqyondil_whole_image(state, state_len, work, work_len, output, output_len, length) }
}
