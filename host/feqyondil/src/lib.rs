//! Feqyondil: a proved flash store of v3 banks, without std and without an allocator.
//!
//! [`Store`] opens an image of the flash, looks values up, edits them, says what a commit asks of the
//! flash, which the program then erases and writes, and tallies the erases by [`Caller`]. Every buffer
//! is lent: [`PART_SIZE`] bytes of work area for each bank, [`BANK_SIZE`] bytes of output for a
//! commit. [`lent`] has the same calls on any bytes, with numbers, as C has them. [`same_settings`]
//! compares two banks; [`bank_cause`] says why reading a bank stopped. [`run_log_read`] and
//! [`run_log_write`] are for a value that is a log of winding runs. [`Rate`] is a daily rate in
//! sixtieths, for [`rate_add`] and the calls beside it. Calls on different buffers may run at once.
//!
//! It links libfeqyondil.a, for x86-64, from the folder that the environment variable FEQYONDIL_LIB
//! names, else from dist/ of the repository, where `make lib` puts it.
//!
//! docs/USING.md goes from a blank board to a running store; docs/SPEC.md has the format and what
//! each call promises. What is here is named as in include/feqyondil.h.

#![no_std]
#![warn(missing_docs)]

#[cfg(test)]
extern crate std;

mod cause;
mod checksum;
mod commit;
mod figures;
#[cfg(test)]
mod header;
pub mod lent;
mod partition;
mod rate;
mod refusal;
mod run_log;
#[cfg(test)]
mod samples;
mod settings;
pub mod state;
mod store;
mod tally;

pub use cause::{bank_cause, Cause, Spot};
pub use checksum::{crc32, Tables};
pub use commit::{Commit, NotCommitted};
pub use figures::Figures;
pub use partition::{partition_parse, partition_serialize, Partition, Slot};
pub use rate::{
    rate_add, rate_compare, rate_from_thirds, rate_subtract, rate_to_thirds, Rate, RATE_HOURS,
    RATE_MINUTES, RATE_NUMBERS, RATE_SECONDS, RATE_SIGN, RATE_THIRDS, RATE_THIRDS_END,
};
pub use refusal::Refusal;
pub use run_log::{run_log_read, run_log_write, RUN_NUMBERS, RUN_SECONDS, RUN_START, RUN_TURNS};
pub use settings::same_settings;
pub use state::{Entry, Kind};
pub use store::{Store, VarType};
pub use tally::{Caller, Tally};

/// Raised with each change of a prototype or of the state's layout: docs/CHANGES.md.
pub const VERSION: u32 = 2;
/// Bytes of one bank of an image.
pub const BANK_SIZE: usize = 65_536;
/// Most banks of an image.
pub const BANKS_MAX: usize = 16;
/// Bytes of work area for each bank.
pub const PART_SIZE: usize = 131_072;
/// Bytes of the state.
pub const STATE_SIZE: usize = 208;
/// Most bytes of a value of the barrels' insert.
pub const BARREL_VALUE_MAX: usize = 512;
/// Most bytes of a log of winding runs.
pub const RUN_LOG_MAX: usize = 4096;
/// Most entries of such a log.
pub const RUN_LOG_ENTRIES_MAX: usize = 1364;
/// Entries of the checksum's tables, of four bytes each.
pub const CRC32_TABLE_ENTRIES: usize = 4096;
