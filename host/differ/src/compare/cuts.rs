//! Power cuts in commits, on the port alone. None of this is proved: it is counted and printed, so
//! that what the header says of power cuts stays true.

mod device;
mod reader;
mod repeated;
mod single;
mod steps;
mod strikes;

pub use repeated::{GoesOn, Repeated};
pub use single::Single;
pub use strikes::Strikes;

#[cfg(test)]
mod tests;
