//! What a table of `cidr_table` forwards: whether two tables forward the same, and the smallest table that does.
//!
//! A table forwards an address to the value of the longest network that it is in. [`forwards_same`] tells whether two
//! tables give each address the same value, and [`SmallestTable`] has the calls of `LpmTable` that make a table of the
//! fewest rows with the same forwarding, as routers want it (FIB compression): no list of rows with that forwarding is
//! shorter, whatever its order and its networks (Draves, King, Venkatachary and Zill, "Constructing Optimal IP Routing
//! Tables", INFOCOM 1999).
//!
//! ```
//! # use cidr::*;
//! # use cidr_table::*;
//! # use cidr_support::alloc::Global;
//! # use cidr_forwarding::*;
//! let rows = [("0.0.0.0/0".parse()?, 1), ("10.0.0.0/8".parse()?, 2), ("10.1.0.0/16".parse()?, 2),
//!             ("192.0.2.0/25".parse()?, 3), ("192.0.2.128/25".parse()?, 3)];
//! let mut routes: LpmTable<Ipv4Cidr, u32> = rows.into_iter().collect();
//! routes.set("192.0.2.0/25".parse()?, 3)?;
//! routes.set("192.0.2.128/25".parse()?, 3)?;
//! let smallest = routes.smallest(Global)?;
//! assert_eq!(format!("{:?}", smallest), "{0.0.0.0/0: 1, 10.0.0.0/8: 2, 192.0.2.0/24: 3}");
//! # Ok::<(), Box<dyn std::error::Error>>(())
//! ```
//!
//! The keys are networks of any type that a table may have. The values are `Copy`, and for the smallest tables they have
//! an order; `==` has to tell equality, which is so for numbers, addresses, and each enum or struct of such fields that
//! derives its comparisons. Values that cannot be copied are kept in a list, and the table has their indices.
//!
//! Only the calls of `SmallestTable` allocate. Their one error is that there is no memory.
//!
//! # What is proved
//!
//! The libraries are written in Rattle, which is Rust with contracts. There each function is proved to return what its
//! contract says, without a panic, for all arguments that meet its condition. The proofs are of that text. The text in Rust is
//! the same without its contracts: a script compares both token by token and lists each one that differs. That rustc, `core` and
//! `proved-cidr-support` do what the compiler and the library of Rattle do is tested, and not proved.
//!
//! A condition on the caller, such as an index below the length, is an assertion in Rust: a call that breaks it panics. Few
//! conditions are not tested, since that would take longer than the call: that the keys behind a `Probe` ascend, and that a
//! trait which a program implements itself keeps its promises. Then the answer is some answer.
//!
//! The licence is MIT.
//! The names and the behaviour come from the crate `cidr` by Stefan Bühler, whose licence is `LICENSE-cidr`.
#![no_std]
#![forbid(unsafe_code)]
#![allow(unused_imports, unused_variables, dead_code, unstable_name_collisions)]
#![allow(clippy::style, clippy::complexity, clippy::perf)]
#![allow(clippy::manual_unwrap_or_default, clippy::non_canonical_partial_ord_impl)]

mod candidates;
mod differing;
mod halves;
mod plan;
mod same;
mod tables;

pub use differing::{Answers, differences};
pub use same::forwards_same;
pub use tables::SmallestTable;
