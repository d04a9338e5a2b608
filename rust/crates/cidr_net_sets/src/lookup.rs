//! The look-ups of a set in a slice of its networks.

use crate::probe::{Networks, contains};
use crate::search::index;
use cidr::names::NetworkBits;

/// How many networks come before this one or are the same, by `index`.
#[inline]
pub fn upto<C: NetworkBits>(networks: &[C], network: &C) -> usize {
    index(&mut Networks::new(networks), network)
}

/// Whether one of the networks contains this one, by `contains`.
#[inline]
pub fn covers<C: NetworkBits>(networks: &[C], network: &C) -> bool {
    contains(&mut Networks::new(networks), network)
}
