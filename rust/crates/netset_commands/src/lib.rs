//! The commands of the program `netset`, over arguments, files, memory and outputs that a caller gives.
//!
//! `program::program` is a whole run: the program gives it those of its system, and another caller its own, as in memory.
#![no_std]
#![forbid(unsafe_code)]
#![allow(unused_imports, unused_variables, dead_code, unstable_name_collisions)]
#![allow(clippy::style, clippy::complexity, clippy::perf)]
#![allow(clippy::manual_unwrap_or_default, clippy::non_canonical_partial_ord_impl)]

pub mod commands;
pub mod errors;
pub mod input;
pub mod output;
pub mod program;
