//! What is lent to a call and what comes back: calls and answers, the state's bytes, and the port
//! on buffers that show what it wrote.

pub mod call;
pub mod port;
pub mod same;
pub mod state;

pub use port::{Lent, Port, Standing};
