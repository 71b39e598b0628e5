//! What the programs share: the libraries' entries, the functions under test, the
//! Rust's own values, and the lists of vectors.

pub mod arguments;
#[cfg(feature = "lib")]
pub mod ffi;
#[cfg(feature = "ynv")]
pub mod ffi_ynv;
pub mod guarded;
pub mod heap;
pub mod lent;
pub mod obj;
pub mod plain;
pub mod plain_obj;
pub mod plain_reach;
pub mod plain_seams;
pub mod plot;
#[cfg(feature = "ynv")]
pub mod races;
pub mod reading;
pub mod reference;
pub mod stacks;
pub mod tally;
pub mod timing;
pub mod under_test;
pub mod vectors;
pub mod walks;
pub mod writing;
