//! Sets beside sets.

use crate::codes::{NO_VALUE, OK};
use crate::finding::yes_or_no;
use crate::sets::{both_of, deliver, set_of};
use crate::values::{CValue, value_network};
use cidr_support::alloc::Global;

/// The addresses of a network that a list of networks has not, as a set in a room, of which `count` becomes the number of
/// networks; where there is too little room, it becomes how many are needed.
pub fn pcidr_complement(
    alloc: Global,
    networks: &[CValue],
    within: &CValue,
    out: &mut [CValue],
    count: &mut usize,
) -> u32 {
    let set = match set_of(alloc, networks) {
        Ok(set) => set,
        Err(code) => return code,
    };
    match value_network(within) {
        Some(within) => deliver(set.complement_in(&within), out, count),
        None => NO_VALUE,
    }
}

/// Whether the second of two lists of networks has all addresses of the first: 0, and 1 or 0 in `answer`; or the number of the
/// error.
#[inline]
pub fn pcidr_is_subset(
    alloc: Global,
    these: &[CValue],
    those: &[CValue],
    answer: &mut u32,
) -> u32 {
    match both_of(alloc, these, those) {
        Ok((these, those)) => {
            *answer = yes_or_no(these.is_subset(&those));
            OK
        }
        Err(code) => code,
    }
}

/// Whether no address is in both of two lists of networks: 0, and 1 or 0 in `answer`; or the number of the error.
#[inline]
pub fn pcidr_is_disjoint(
    alloc: Global,
    these: &[CValue],
    those: &[CValue],
    answer: &mut u32,
) -> u32 {
    match both_of(alloc, these, those) {
        Ok((these, those)) => {
            *answer = yes_or_no(these.is_disjoint(&those));
            OK
        }
        Err(code) => code,
    }
}
