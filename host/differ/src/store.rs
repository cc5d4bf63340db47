//! The store on every side: 01's book, the port on lent buffers, the Rust; runs of calls on all of
//! them, and calls on states and work areas that nobody made.

pub mod book;
pub mod fixed;
pub mod fuzz;
pub mod lent;
pub mod run;
mod rust;

#[cfg(test)]
mod difference_tests;
