//! Hosts: addresses in their networks.

pub(crate) mod combined;
pub(crate) mod host;
mod v4;
