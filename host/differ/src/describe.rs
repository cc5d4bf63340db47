//! Inputs as they are described: few and small numbers, of which the bytes are made. Each has one
//! strategy, which every comparison shares; what is drawn is made smaller on the description.

mod bank;
mod bytes;
mod call;
mod change;
mod damage;
mod entries;
pub mod image;
mod list;
mod log;
mod pair;
mod plan;
mod rate;
mod run;
mod state;
mod style;
mod tallies;
mod value;

#[cfg(test)]
pub use self::rate::rate_of;
pub use self::rate::{thirds, thirds_of, two_rates, Rate, Rates, Thirds, ENDS, UNITS};
pub use bank::{slot, Slot};
pub use bytes::{content, Bytes};
pub use call::{Call, Reach};
pub use change::{Behind, Change, RecordField, HEADER_FIELDS, RECORD_FIELDS};
pub use damage::{Damage, Place};
pub use entries::{At, Entries, Fall, Fill, BOUNDARIES};
pub use log::{
    bytes_to_read, entries_to_write, log_to_read, ByteDamage, Log, NumberDamage, WithOutput,
    NO_ROOM, TELLING,
};
pub use pair::{pair, Other, Pair};
pub use plan::{plan, Action, Plan, SPARE};
pub use run::{run, Run};
pub use state::{case, moving_case, Case};
pub use style::Style;
