//! The longest match of an address, by words of 32 bits that an array or a file may hold.
//!
//! [`build`] writes the look-up table of keys, which is unique, and [`find`] reads it, from whatever is [`Words`]. [`check`]
//! says whether words from elsewhere are the table of keys.
//!
//! ```
//! # use cidr::Ipv4Cidr;
//! # use cidr_lookup::*;
//! # use cidr_support::alloc::Global;
//! # use cidr_table::LpmTable;
//! # use core::net::Ipv4Addr;
//! # fn find_in(alloc: Global, keys: &[Key<u32>], address: Ipv4Addr) -> Result<Option<usize>, TableError> {
//! let table = build(alloc, keys)?;
//! let first = table.first.as_slice();
//! let words = table.words.as_slice();
//! Ok(find(&first, &words, table.steps, address.to_bits()))
//! # }
//! # let keys = [Key { address: 0x0a000000u32, len: 8 }, Key { address: 0x0a010000, len: 16 }];
//! # let address = "10.1.2.3".parse()?;
//! # assert_eq!(find_in(Global, &keys, address)?, Some(1));
//! # Ok::<(), Box<dyn std::error::Error>>(())
//! ```
//!
//! # What is proved
//!
//! The libraries are written in Rattle, which is Rust with contracts. There each function is proved to return what its
//! contract says, without a panic, for all arguments that meet its condition. The proofs are of that text. The text in Rust is
//! the same without its contracts: a script compares both token by token and lists each one that differs. That rustc, `core` and
//! `proved-cidr-support` do what the compiler and the library of Rattle do is tested, and not proved.
//!
//! A condition on the caller, such as an index below the length, is an assertion in Rust: a call that breaks it panics. Few
//! conditions are not tested, since that would take longer than the call: that the keys behind a `Probe` ascend, and that a
//! trait which a program implements itself keeps its promises. Then the answer is some answer.
//!
//! The licence is MIT.
//! The names and the behaviour come from the crate `cidr` by Stefan Bühler, whose licence is `LICENSE-cidr`.
#![no_std]
#![forbid(unsafe_code)]
#![allow(unused_imports, unused_variables, dead_code, unstable_name_collisions)]
#![allow(clippy::style, clippy::complexity, clippy::perf)]
#![allow(clippy::manual_unwrap_or_default, clippy::non_canonical_partial_ord_impl)]

mod address;
mod building;
mod bytes;
mod checking;
mod halves;
mod key;
mod keyed;
mod list;
mod node;
mod pass;
mod ranges;
mod ready;
mod ready_set;
mod search;
mod table;
mod words;

pub use address::Address;
pub use checking::{WordsFault, check};
pub use halves::Ipv6Halves;
pub use key::{Key, first_refused};
pub use keyed::Keyed;
pub use ready::ReadyTable;
pub use ready_set::ReadySet;
pub use search::find;
pub use table::{LookupTable, TableError, build};
pub use words::Words;
