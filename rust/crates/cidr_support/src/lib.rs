//! What the proved crates take from outside `core`: strings and lists of a fixed room ([`arrayvec`]), and, with the
//! feature `alloc`, a list whose calls return an error where memory runs out ([`mod@vec`]).
//!
//! These crates are proved in Rattle over a library of the same names. This crate takes its place in Rust: it has
//! only what they call, it is written by hand, and it is tested and not proved. No call of it is unsafe.
#![no_std]
#![forbid(unsafe_code)]
#[cfg(feature = "alloc")]
extern crate alloc as rust_alloc;
#[cfg(feature = "std")]
extern crate std;

pub mod alloc;
pub mod arrayvec;
pub mod carry;
#[cfg(feature = "string")]
pub mod string;
#[cfg(feature = "alloc")]
pub mod vec;
