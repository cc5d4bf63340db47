//! Readers of one bank: the Rust, the port, and the words of the scope paper (01).

pub mod cause;
pub mod lent;
pub mod model;
pub mod rust;
pub mod settings;
pub mod slot;
pub mod written;

/// A bank as a reader sees it, or what is wrong with its answer.
pub type Read<'a> = Result<slot::Slot<&'a [u8]>, String>;

#[cfg(test)]
mod tests;
