//! Access lists of five fields, proved: which packets they permit, which of their rules decide nothing, and how two differ.
//!
//! # What is proved
//!
//! The libraries are written in Rattle, which is Rust with contracts. There each function is proved to return what its
//! contract says, without a panic, for all arguments that meet its condition. The proofs are of that text. The text in Rust is
//! the same without its contracts: a script compares both token by token and lists each one that differs. That rustc, `core` and
//! `proved-cidr-support` do what the compiler and the library of Rattle do is tested, and not proved.
//!
//! A condition on the caller, such as an index below the length, is an assertion in Rust: a call that breaks it panics. Few
//! conditions are not tested, since that would take longer than the call: that the keys behind a `Probe` ascend, and that a
//! trait which a program implements itself keeps its promises. Then the answer is some answer.
//!
//! The licence is MIT.
//! The names and the behaviour come from the crate `cidr` by Stefan Bühler, whose licence is `LICENSE-cidr`.
#![no_std]
#![forbid(unsafe_code)]
#![allow(unused_imports, unused_variables, dead_code, unstable_name_collisions)]
#![allow(clippy::style, clippy::complexity, clippy::perf)]
#![allow(clippy::manual_unwrap_or_default, clippy::non_canonical_partial_ord_impl)]

mod addresses;
mod comparing;
mod entries;
mod errors;
mod fields;
mod joining;
mod parts;
mod regions;
mod rules;
mod search;
mod shadows;

pub use addresses::Endpoint;
pub use comparing::{Difference, differences, differing_packet};
pub use entries::{Entry, Traffic, Transport};
pub use errors::RulesError;
pub use fields::{FieldValue, Range};
pub use regions::{Packet, Region};
pub use rules::{Action, Rule, decides, permits};
pub use shadows::{pruned, redundant, shadowed};
