//! Look-up tables in files: the longest match of an address, with its value, out of bytes that are read or mapped.
//!
//! A file has a table of IPv4 networks and one of IPv6 networks, each row with a value of any bytes. [`open`] reads the
//! header and cuts the bytes into parts, [`check`] says whether these are a table, and [`lookup`] reads some of their
//! bytes. [`written`] makes the bytes of a file. README.md describes them.
//!
//! # What is proved
//!
//! The libraries are written in Rattle, which is Rust with contracts. There each function is proved to return what its
//! contract says, without a panic, for all arguments that meet its condition. The proofs are of that text. The text in Rust is
//! the same without its contracts: a script compares both token by token and lists each one that differs. That rustc, `core` and
//! `proved-cidr-support` do what the compiler and the library of Rattle do is tested, and not proved.
//!
//! A condition on the caller, such as an index below the length, is an assertion in Rust: a call that breaks it panics. Few
//! conditions are not tested, since that would take longer than the call: that the keys behind a `Probe` ascend, and that a
//! trait which a program implements itself keeps its promises. Then the answer is some answer.
//!
//! The licence is MIT.
#![no_std]
#![forbid(unsafe_code)]
#![allow(unused_imports, unused_variables, dead_code, unstable_name_collisions)]
#![allow(clippy::style, clippy::complexity, clippy::perf)]
#![allow(clippy::manual_unwrap_or_default, clippy::non_canonical_partial_ord_impl)]

mod address;
mod building;
mod checking;
mod contents;
mod faults;
mod layout;
mod looking;
mod opening;
mod writing;

pub use address::{FileAddress, Ipv4Bytes, Ipv6Bytes};
pub use building::written;
pub use checking::{are_offsets, check, checked};
pub use contents::{Contents, FileRows};
pub use faults::{FileFault, TableFault, WriteError};
pub use layout::{Counts, FileTable, FileTables};
pub use looking::{Found, find, has, lookup};
pub use opening::{counts, open};
pub use writing::file_of;
