//! The MaxMind DB file format 2.0, read: which value a file has for an address, as JSON, proved for any bytes.
//!
//! [`open`] finds the parts of a file in its bytes. [`lookup`] gives the network that an address is in, and the place of its
//! value in the data section, and [`Database::json`] the value there.
//!
//! # What is proved
//!
//! The libraries are written in Rattle, which is Rust with contracts. There each function is proved to return what its
//! contract says, without a panic, for all arguments that meet its condition. The proofs are of that text. The text in Rust is
//! the same without its contracts: a script compares both token by token and lists each one that differs. That rustc, `core` and
//! `proved-cidr-support` do what the compiler and the library of Rattle do is tested, and not proved.
//!
//! A condition on the caller, such as an index below the length, is an assertion in Rust: a call that breaks it panics. Few
//! conditions are not tested, since that would take longer than the call: that the keys behind a `Probe` ascend, and that a
//! trait which a program implements itself keeps its promises. Then the answer is some answer.
//!
//! The licence is MIT.
//! The names and the behaviour come from the crate `cidr` by Stefan Bühler, whose licence is `LICENSE-cidr`.
#![no_std]
#![forbid(unsafe_code)]
#![allow(unused_imports, unused_variables, dead_code, unstable_name_collisions)]
#![allow(clippy::style, clippy::complexity, clippy::perf)]
#![allow(clippy::manual_unwrap_or_default, clippy::non_canonical_partial_ord_impl)]

mod database;
mod errors;
mod fields;
mod found;
mod going;
mod json;
mod kinds;
mod leaf_texts;
mod leaves;
mod looking;
mod metadata;
mod networks;
mod numbers;
mod numerals;
mod opening;
mod parts;
mod records;
mod rows;
mod searching;
mod trees;

pub use database::Database;
pub use errors::{JsonError, MetadataError, OpenError};
pub use found::Found;
pub use json::text_at;
pub use kinds::{Field, Kind};
pub use looking::{Answer, lookup, lookup_in};
pub use opening::open;
pub use parts::Parts;
pub use records::RecordSize;
pub use rows::{Row, next_row, next_row_in};
pub use trees::Tree;
