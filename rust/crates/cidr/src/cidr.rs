//! Networks.

pub(crate) mod any;
pub(crate) mod combined;
pub(crate) mod network;
mod v4;
mod v6;
