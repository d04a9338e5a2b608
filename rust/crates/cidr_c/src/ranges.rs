//! Ranges of addresses.

use cidr_support::vec::Vec;
use crate::codes::{NO_MEMORY, NO_VALUE};
use crate::finding::put_list;
use crate::sets::{deliver, set_of};
use crate::values::{CValue, address_of, put_address};
use cidr::{AnyIpCidr, IpAddr};
use cidr_sets::{AddressRange, NetworkSet};
use cidr_support::alloc::{AllocError, Global};

/// Addresses from a first to a last one, both included.
#[repr(C)]
#[derive(Clone, Copy)]
pub struct CRange {
    /// The first address.
    pub first: CValue,
    /// The last address.
    pub last: CValue,
}

/// The addresses from the first to the last, both included, as a set in a room, of which `count` becomes the number of
/// networks: none where the last comes before the first, and at most 62 in IPv4 and 254 in IPv6; where there is too little
/// room, it becomes how many are needed. IPv4 addresses come before those of IPv6.
pub fn pcidr_summarize(
    alloc: Global,
    first: &CValue,
    last: &CValue,
    out: &mut [CValue],
    count: &mut usize,
) -> u32 {
    match (address_of(first), address_of(last)) {
        (Some(first), Some(last)) => {
            deliver(
                NetworkSet::<AnyIpCidr>::from_range(alloc, first, last),
                out,
                count,
            )
        }
        _ => NO_VALUE,
    }
}

/// The longest ranges of the addresses of a list of networks, ascending, in a room, of which `count` becomes the number: between
/// one and the next is an address that is in no network. A range can go from 255.255.255.255 on to ::, which comes next. Where
/// there is too little room, `count` becomes how many are needed.
pub fn pcidr_ranges(
    alloc: Global,
    networks: &[CValue],
    out: &mut [CRange],
    count: &mut usize,
) -> u32 {
    let set = match set_of(alloc, networks) {
        Ok(set) => set,
        Err(code) => return code,
    };
    match ranges_of(alloc, &set) {
        Ok(ranges) => put_list(ranges.as_slice(), out, count),
        Err(_) => NO_MEMORY,
    }
}

/// The longest ranges of a set.
#[inline]
fn ranges_of(alloc: Global, set: &NetworkSet<AnyIpCidr>) -> Result<Vec<CRange>, AllocError> {
    let mut ranges = Vec::new(alloc);
    for range in set.ranges() {
        ranges.push(range_of(&range))?;
    }
    Ok(ranges)
}

/// A range as C has it.
#[inline]
fn range_of(range: &AddressRange<IpAddr>) -> CRange {
    CRange {
        first: address_value(&range.first),
        last: address_value(&range.last),
    }
}

/// An address as C has it.
fn address_value(address: &IpAddr) -> CValue {
    let mut value = CValue {
        high: 0,
        low: 0,
        tag: 0,
        zero_17: 0,
        zero_18: 0,
        zero_20: 0,
    };
    put_address(address, &mut value);
    value
}
