//! The networks of a list that contain a network, and those that lie in it. The first error is a value that is no network, of
//! the list or the asked one, and then too little room; no memory may come before either. After an error the room is as it was.

use cidr_support::vec::Vec;
use crate::codes::{NO_MEMORY, NO_VALUE};
use crate::finding::put_list;
use crate::values::{CValue, value_network};
use cidr::AnyIpCidr;
use cidr_support::alloc::Global;

/// How a network may lie to the asked one.
trait Relation: Sized {
    /// Whether it holds.
    fn holds(network: &AnyIpCidr, asked: &AnyIpCidr) -> bool;
}

/// The network contains the asked one.
struct Covering;

impl Relation for Covering {
    #[inline]
    fn holds(network: &AnyIpCidr, asked: &AnyIpCidr) -> bool {
        network.contains_cidr(asked)
    }
}

/// The network lies in the asked one.
struct Covered;

impl Relation for Covered {
    #[inline]
    fn holds(network: &AnyIpCidr, asked: &AnyIpCidr) -> bool {
        asked.contains_cidr(network)
    }
}

/// The indexes of the networks of which a relation holds, or the number of the error.
fn indexes_of<R: Relation>(
    alloc: Global,
    networks: &[CValue],
    asked: &AnyIpCidr,
) -> Result<Vec<usize>, u32> {
    let mut indexes = Vec::new(alloc);
    for i in 0..networks.len() {
        let Some(network) = value_network(&networks[i]) else {
            return Err(NO_VALUE);
        };
        if R::holds(&network, asked) {
            let Ok(()) = indexes.push(i) else {
                return Err(NO_MEMORY);
            };
        }
    }
    Ok(indexes)
}

/// Puts the indexes of the networks of which a relation holds into a room.
#[inline]
fn related<R: Relation>(
    alloc: Global,
    networks: &[CValue],
    asked: &CValue,
    out: &mut [usize],
    count: &mut usize,
) -> u32 {
    let Some(asked) = value_network(asked) else {
        return NO_VALUE;
    };
    match indexes_of::<R>(alloc, networks, &asked) {
        Ok(indexes) => put_list(indexes.as_slice(), out, count),
        Err(code) => code,
    }
}

/// The indexes of the networks of a list that contain a network, or an address: the first `count` of `out`, ascending, and so
/// the shortest network first where the list is in the order of `pcidr_compare`; where there is too little room, `count` becomes
/// how many they are.
#[inline]
pub fn pcidr_covering(
    alloc: Global,
    networks: &[CValue],
    asked: &CValue,
    out: &mut [usize],
    count: &mut usize,
) -> u32 {
    related::<Covering>(alloc, networks, asked, out, count)
}

/// The indexes of the networks of a list that lie in a network, which may be one of them: the first `count` of `out`,
/// ascending; where there is too little room, `count` becomes how many they are.
#[inline]
pub fn pcidr_covered(
    alloc: Global,
    networks: &[CValue],
    asked: &CValue,
    out: &mut [usize],
    count: &mut usize,
) -> u32 {
    related::<Covered>(alloc, networks, asked, out, count)
}
