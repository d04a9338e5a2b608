//! What the proved programs take from the operating system: arguments, streams, files, a clock and random bytes.
//!
//! The programs are proved in Rattle over a library of the same names. This crate takes its place on Linux: it has only what
//! they call, it is written by hand, and it is tested and not proved. It is no start of Rust's own, which opens `/dev/null`
//! for a stream that is closed, so that what is written to it is lost without an error, and ends a program whose first
//! allocations are refused: [`main!`] makes the `main` that C calls. No call allocates but [`fs::canonicalize`], which
//! returns an error where there is no memory. What is unsafe stands in `c.rs` and in [`main!`], each with its reason.
#![deny(unsafe_code)]

mod c;
pub mod env;
pub mod fs;
pub mod io;
pub mod os;
pub mod process;
pub mod random;
pub mod rt;

/// What a program prints of itself, with the line that tells how it was built. It is a text that a macro joins.
#[macro_export]
macro_rules! version {
    ($text:literal) => {
        concat!($text, "built by cargo of the proved text\n")
    };
}
