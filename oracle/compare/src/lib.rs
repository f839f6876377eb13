//! The static library beside the oracle. A record of a replay list holds a call,
//! all that is lent to it and all that the oracle answers; here the same call is
//! made through the library, and what it answers, writes and leaves alone is held
//! to the record, bit for bit, but that all NaNs are one.

#[allow(dead_code)]
#[path = "../../../rust/src/ffi.rs"]
mod declared;
pub mod lent;
pub mod lists;
pub mod tally;

pub use declared::{archive as ffi, hold_interface, ABI_VERSION};
