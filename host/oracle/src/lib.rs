// The Rust's lib.rs as it stands, with its modules beside it; see build.rs.
// Its warnings are silenced here, since nothing in it is ours to change.
#![allow(warnings, clippy::all)]

include!(concat!(env!("OUT_DIR"), "/lib.rs"));
