//! Sets of addresses, proved: union, intersection and difference of sets that are lists of networks.
//!
//! The networks are of one type of `cidr` that implements `NetworkBits`: `Ipv4Cidr`, `Ipv6Cidr` or `AnyIpCidr`, of
//! which a set has addresses of both families. [`NetworkSet`] keeps them in a `Vec`, [`slices`] has some of its calls
//! in memory of the caller, and [`access`] tells what an access list permits.
//!
//! A look-up in n networks takes one or two binary searches, O(log n), and no memory. What counts addresses or finds
//! free networks looks at each network, O(n). `union`, `intersection` and `difference` go through both sets once, and
//! allocate room for their result. `insert` and `remove` move the networks behind, O(n). A call that returns
//! `AllocError` has changed nothing.
//!
//! # What is proved
//!
//! The libraries are written in Rattle, which is Rust with contracts. There each function is proved to return what its
//! contract says, without a panic, for all arguments that meet its condition. The proofs are of that text. The text in Rust is
//! the same without its contracts: a script compares both token by token and lists each one that differs. That rustc, `core` and
//! `proved-cidr-support` do what the compiler and the library of Rattle do is tested, and not proved.
//!
//! A condition on the caller, such as an index below the length, is an assertion in Rust: a call that breaks it panics. Few
//! conditions are not tested, since that would take longer than the call: that the keys behind a `Probe` ascend, and that a
//! trait which a program implements itself keeps its promises. Then the answer is some answer.
//!
//! The licence is MIT.
//! The names and the behaviour come from the crate `cidr` by Stefan Bühler, whose licence is `LICENSE-cidr`.
#![no_std]
#![forbid(unsafe_code)]
#![allow(unused_imports, unused_variables, dead_code, unstable_name_collisions)]
#![allow(clippy::style, clippy::complexity, clippy::perf)]
#![allow(clippy::manual_unwrap_or_default, clippy::non_canonical_partial_ord_impl)]

pub mod alloc;
mod checks;

pub mod access;
mod decisions;
mod lookup;
mod merging;
mod neighbours;
mod pools;
mod probe;
mod ranges;
mod replacing;
mod rests;
mod search;
mod set;
pub mod slices;
mod spans;
mod walk;
mod writing;

pub use cidr_table::is_inside;
pub use pools::PoolNetwork;
pub use probe::{NetworkProbe, Networks, contains};
pub use ranges::{AddressRange, Addressed, Ranges};
pub use set::NetworkSet;
pub use walk::SetAddresses;
