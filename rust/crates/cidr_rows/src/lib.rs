//! The searches of a table over rows that the caller keeps, as in an array: where a network stands or belongs, its longest
//! match, all networks that it is in, and those that are in it. They ask nothing of the order of the keys: where these ascend,
//! each once, the answers are those of a table, and elsewhere indexes that there are. And a row is put in, or taken out.
#![no_std]
#![forbid(unsafe_code)]
#![allow(unused_imports, unused_variables, dead_code, unstable_name_collisions)]
#![allow(clippy::style, clippy::complexity, clippy::perf)]
#![allow(clippy::manual_unwrap_or_default, clippy::non_canonical_partial_ord_impl)]

mod keys;
mod lengths;
mod moving;
mod search;

pub use keys::Keys;
pub use lengths::{add_length, add_lengths};
pub use moving::{insert, remove};
pub use search::{covered, covering, find, longest};
