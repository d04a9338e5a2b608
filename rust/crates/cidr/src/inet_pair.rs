//! Pairs: two addresses of one network.

pub(crate) mod combined;
pub(crate) mod host_pair;
mod v4;
mod v6;
