//! Sets of addresses as lists of networks, in memory of the caller. Of two lists, the first error is a value that is no
//! network, and then too little room; no memory may come before either. After an error the room is as it was.

use crate::batches::{networks_of, put};
use crate::codes::{NO_MEMORY, NO_ROOM, OK};
use crate::values::CValue;
use cidr::AnyIpCidr;
use cidr_sets::NetworkSet;
use cidr_support::alloc::{AllocError, Global};

/// The set of the addresses of some networks, or the number of the error.
#[inline]
pub fn set_of(alloc: Global, values: &[CValue]) -> Result<NetworkSet<AnyIpCidr>, u32> {
    let networks = networks_of(alloc, values)?;
    match NetworkSet::from_networks(alloc, networks.as_slice()) {
        Ok(set) => Ok(set),
        Err(_) => Err(NO_MEMORY),
    }
}

/// Replaces networks, in any order, by the shortest list of networks with the same addresses, ascending: the first
/// `count` of the slice. What is behind them stays as it was. 0, or the number of an error, and all is as it was.
///
/// It allocates, and puts the networks in order: O(n log n).
pub fn pcidr_cover(alloc: Global, networks: &mut [CValue], count: &mut usize) -> u32 {
    match set_of(alloc, networks) {
        Ok(set) => {
            put(set.as_slice(), networks);
            *count = set.len();
            OK
        }
        Err(code) => code,
    }
}

/// The networks of two lists as sets, or the number of the error.
#[inline]
pub fn both_of(
    alloc: Global,
    these: &[CValue],
    those: &[CValue],
) -> Result<(NetworkSet<AnyIpCidr>, NetworkSet<AnyIpCidr>), u32> {
    Ok((set_of(alloc, these)?, set_of(alloc, those)?))
}

/// Puts a set into a room, or says how much room it needs.
pub fn deliver(
    set: Result<NetworkSet<AnyIpCidr>, AllocError>,
    out: &mut [CValue],
    count: &mut usize,
) -> u32 {
    let Ok(set) = set else {
        return NO_MEMORY;
    };
    *count = set.len();
    if set.len() > out.len() {
        return NO_ROOM;
    }
    put(set.as_slice(), out);
    OK
}

/// A set that is made of two.
trait Combination: Sized {
    /// The set.
    fn of(
        these: &NetworkSet<AnyIpCidr>,
        those: &NetworkSet<AnyIpCidr>,
    ) -> Result<NetworkSet<AnyIpCidr>, AllocError>;
}

/// The addresses that one of two has, or both.
struct Union;

impl Combination for Union {
    #[inline]
    fn of(
        these: &NetworkSet<AnyIpCidr>,
        those: &NetworkSet<AnyIpCidr>,
    ) -> Result<NetworkSet<AnyIpCidr>, AllocError> {
        these.union(those)
    }
}

/// The addresses that both have.
struct Intersection;

impl Combination for Intersection {
    #[inline]
    fn of(
        these: &NetworkSet<AnyIpCidr>,
        those: &NetworkSet<AnyIpCidr>,
    ) -> Result<NetworkSet<AnyIpCidr>, AllocError> {
        these.intersection(those)
    }
}

/// The addresses that the first has and the second has not.
struct Difference;

impl Combination for Difference {
    #[inline]
    fn of(
        these: &NetworkSet<AnyIpCidr>,
        those: &NetworkSet<AnyIpCidr>,
    ) -> Result<NetworkSet<AnyIpCidr>, AllocError> {
        these.difference(those)
    }
}

/// The addresses that exactly one has.
struct SymmetricDifference;

impl Combination for SymmetricDifference {
    #[inline]
    fn of(
        these: &NetworkSet<AnyIpCidr>,
        those: &NetworkSet<AnyIpCidr>,
    ) -> Result<NetworkSet<AnyIpCidr>, AllocError> {
        these.symmetric_difference(those)
    }
}

/// Puts what is made of two lists of networks into a room.
#[inline]
fn combined<K: Combination>(
    alloc: Global,
    these: &[CValue],
    those: &[CValue],
    out: &mut [CValue],
    count: &mut usize,
) -> u32 {
    match both_of(alloc, these, those) {
        Ok((these, those)) => deliver(K::of(&these, &those), out, count),
        Err(code) => code,
    }
}

/// The networks of the front of a room, and others, as sets, or the number of the error.
#[inline]
fn both_in(
    alloc: Global,
    room: &[CValue],
    count: usize,
    others: &[CValue],
) -> Result<(NetworkSet<AnyIpCidr>, NetworkSet<AnyIpCidr>), u32> {
    both_of(alloc, &room[..count.min(room.len())], others)
}

/// Puts what is made of the networks of the front of a room, and others, into that room.
#[inline]
fn combined_in_place<K: Combination>(
    alloc: Global,
    networks: &mut [CValue],
    count: &mut usize,
    others: &[CValue],
) -> u32 {
    match both_in(alloc, networks, *count, others) {
        Ok((these, those)) => deliver(K::of(&these, &those), networks, count),
        Err(code) => code,
    }
}

/// The addresses that one of two lists of networks has, or both, as a set in a room, of which `count` becomes the
/// number of networks; where there is too little room, it becomes how many are needed.
#[inline]
pub fn pcidr_union(
    alloc: Global,
    these: &[CValue],
    those: &[CValue],
    out: &mut [CValue],
    count: &mut usize,
) -> u32 {
    combined::<Union>(alloc, these, those, out, count)
}

/// The addresses that both of two lists of networks have, as a set in a room, of which `count` becomes the number of
/// networks; where there is too little room, it becomes how many are needed.
#[inline]
pub fn pcidr_intersection(
    alloc: Global,
    these: &[CValue],
    those: &[CValue],
    out: &mut [CValue],
    count: &mut usize,
) -> u32 {
    combined::<Intersection>(alloc, these, those, out, count)
}

/// The addresses that the first of two lists of networks has and the second has not, as a set in a room, of which
/// `count` becomes the number of networks; where there is too little room, it becomes how many are needed.
#[inline]
pub fn pcidr_difference(
    alloc: Global,
    these: &[CValue],
    those: &[CValue],
    out: &mut [CValue],
    count: &mut usize,
) -> u32 {
    combined::<Difference>(alloc, these, those, out, count)
}

/// The addresses that exactly one of two lists of networks has, as a set in a room, of which `count` becomes the number
/// of networks; where there is too little room, it becomes how many are needed.
#[inline]
pub fn pcidr_symmetric_difference(
    alloc: Global,
    these: &[CValue],
    those: &[CValue],
    out: &mut [CValue],
    count: &mut usize,
) -> u32 {
    combined::<SymmetricDifference>(alloc, these, those, out, count)
}

/// Of the set that the first `count` networks of a room are, adds the addresses that the others have: the set that is
/// left stands at the front of the room, and `count` becomes its number of networks; where there is too little room, it
/// becomes how many are needed.
#[inline]
pub fn pcidr_union_in_place(
    alloc: Global,
    networks: &mut [CValue],
    count: &mut usize,
    others: &[CValue],
) -> u32 {
    combined_in_place::<Union>(alloc, networks, count, others)
}

/// Of the set that the first `count` networks of a room are, keeps the addresses that the others have too: the set that
/// is left stands at the front of the room, and `count` becomes its number of networks; where there is too little room,
/// it becomes how many are needed.
#[inline]
pub fn pcidr_intersection_in_place(
    alloc: Global,
    networks: &mut [CValue],
    count: &mut usize,
    others: &[CValue],
) -> u32 {
    combined_in_place::<Intersection>(alloc, networks, count, others)
}

/// Of the set that the first `count` networks of a room are, takes out the addresses that the others have: the set that
/// is left stands at the front of the room, and `count` becomes its number of networks; where there is too little room,
/// it becomes how many are needed.
#[inline]
pub fn pcidr_difference_in_place(
    alloc: Global,
    networks: &mut [CValue],
    count: &mut usize,
    others: &[CValue],
) -> u32 {
    combined_in_place::<Difference>(alloc, networks, count, others)
}
