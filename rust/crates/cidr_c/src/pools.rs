//! Free networks of pools.

use crate::finding::put_any_found;
use crate::sets::set_of;
use crate::values::CValue;
use cidr_support::alloc::Global;

/// The first network of prefix length `len` all of whose addresses are in a list of networks: 0 and the network in `out`, or
/// the number of the error. IPv4 networks come before those of IPv6.
#[inline]
pub fn pcidr_first_free(
    alloc: Global,
    networks: &[CValue],
    len: u8,
    out: &mut CValue,
) -> u32 {
    match set_of(alloc, networks) {
        Ok(set) => put_any_found(set.first_free(usize::from(len) + 1), out),
        Err(code) => code,
    }
}

/// The first network of prefix length `len` in that network of the set of a list which has the fewest addresses of those with
/// room, so that what is large stays whole: 0 and the network in `out`, or the number of the error.
#[inline]
pub fn pcidr_best_free(
    alloc: Global,
    networks: &[CValue],
    len: u8,
    out: &mut CValue,
) -> u32 {
    match set_of(alloc, networks) {
        Ok(set) => put_any_found(set.best_free(usize::from(len) + 1), out),
        Err(code) => code,
    }
}
