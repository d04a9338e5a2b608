//! What a program reads its arguments from and writes its answers to, proved: arguments as strings, lines of sources
//! that may fail, sinks that may take a part of what they are offered and may fail, lines that are written to them in
//! blocks, and numbers in decimal.
//!
//! Contracts speak of the bytes of arguments, sources and sinks that are told. Those of the system tell none; a source
//! and a sink over memory do.
#![no_std]
#![forbid(unsafe_code)]
#![allow(unused_imports, unused_variables, dead_code, unstable_name_collisions)]
#![allow(clippy::style, clippy::complexity, clippy::perf)]
#![allow(clippy::manual_unwrap_or_default, clippy::non_canonical_partial_ord_impl)]

pub mod arguments;
pub mod block;
pub mod decimal;
pub mod lines;
pub mod memory;
pub mod shown;
pub mod sink;
pub mod source;
pub mod writing;
