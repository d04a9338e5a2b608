//! Parsing and printing what the strings of networks, hosts and pairs have in common.

pub(crate) mod print;
pub(crate) mod read;
pub(crate) mod with_length;
