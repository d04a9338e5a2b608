//! Look-ups of many networks at once.

use cidr_support::vec::Vec;
use crate::batches::networks_of;
use crate::codes::{NO_MEMORY, NO_ROOM, NO_VALUE, OK};
use crate::nested::{longest_in, nested_rows};
use crate::sets::set_of;
use crate::values::{CValue, value_network};
use cidr::AnyIpCidr;
use cidr_sets::NetworkSet;
use cidr_table::LpmTable;
use cidr_support::alloc::{AllocError, Global};

/// For each asked network 1, where it lies in the others together, and 0 where not, at its index of `out`: 0, or the
/// number of the first error, of one of the others, of the room, or of an asked network; of memory at any place before.
///
/// It allocates, and puts the others in order: O(n log n) at each call.
pub fn pcidr_contains_each(
    alloc: Global,
    networks: &[CValue],
    asked: &[CValue],
    out: &mut [u8],
) -> u32 {
    let set = match set_of(alloc, networks) {
        Ok(set) => set,
        Err(code) => return code,
    };
    if out.len() < asked.len() {
        return NO_ROOM;
    }
    for i in 0..asked.len() {
        let Some(network) = value_network(&asked[i]) else {
            return NO_VALUE;
        };
        out[i] = held(&set, &network);
    }
    OK
}

/// 1 where the set has all addresses of the network, and 0 where not.
#[inline]
fn held(set: &NetworkSet<AnyIpCidr>, network: &AnyIpCidr) -> u8 {
    if set.contains(network) { 1 } else { 0 }
}

/// For each asked network the index of the longest network that it is in, or `usize::MAX` where it is in none. The
/// networks may be in any order; of one that repeats the last index counts. Errors as of `pcidr_contains_each`.
///
/// It allocates, and puts the networks in order: O(n log n) at each call, and then O(log n) for each asked one, and a step for each
/// network around what stands before it.
pub fn pcidr_longest_match_each(
    alloc: Global,
    networks: &[CValue],
    asked: &[CValue],
    out: &mut [usize],
) -> u32 {
    let nested = match nested_rows(alloc, networks) {
        Ok(nested) => nested,
        Err(code) => return code,
    };
    if out.len() < asked.len() {
        return NO_ROOM;
    }
    for i in 0..asked.len() {
        let Some(network) = value_network(&asked[i]) else {
            return NO_VALUE;
        };
        out[i] = longest_in(&nested, &network);
    }
    OK
}

/// The table of networks, each with its last index, or the number of the error.
#[inline]
pub fn table_of(alloc: Global, values: &[CValue]) -> Result<LpmTable<AnyIpCidr, usize>, u32> {
    let rows = indexed_rows(alloc, values)?;
    Ok(LpmTable::from_rows(rows))
}

/// The networks that values are, each with its index, or the number of the error.
#[inline]
pub fn indexed_rows(alloc: Global, values: &[CValue]) -> Result<Vec<(AnyIpCidr, usize)>, u32> {
    let networks = networks_of(alloc, values)?;
    match with_indexes(alloc, networks.as_slice()) {
        Ok(rows) => Ok(rows),
        Err(_) => Err(NO_MEMORY),
    }
}

/// Networks, each with its index.
#[inline]
fn with_indexes(
    alloc: Global,
    networks: &[AnyIpCidr],
) -> Result<Vec<(AnyIpCidr, usize)>, AllocError> {
    let mut rows = Vec::with_capacity(alloc, networks.len())?;
    for i in 0..networks.len() {
        rows.push((networks[i], i))?;
    }
    Ok(rows)
}
