//! Random inputs for the field peer of document 02's P9, one peer's box.
//!
//! - `parts`: states of a box: such as messages lead to, scattered ones, damaged ones
//! - `calls`: calls of which many are taken, and others near them
//! - `answers`: which answers the calls got, and which they can get
//! - `early`: rehearsals in which much comes too early
//! - `overheard`: rehearsals in which a peer is told more hashes than its box keeps
//! - `alike`: two lists of calls that pass a peer the same messages

pub mod alike;
pub mod answers;
pub mod calls;
pub mod early;
pub mod overheard;
pub mod parts;
