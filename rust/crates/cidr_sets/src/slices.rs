//! Sets in memory that the caller brings: nothing here allocates.
//!
//! The caller has to ensure that the networks of each set are in normal form, as `as_slice` of a set has them:
//! ascending, none in another, and no two the halves of one. So are those that are written. `from_networks` takes any.

use crate::merging::{write_merged, write_shared};
use crate::ranges::Addressed;
use crate::rests::{write_complement, write_rests};
use crate::spans::write_range;
use crate::writing::Filled;
use cidr::NetworkBits;
use cidr_table::least_cover_in_place;

/// Writes the networks of the addresses that one of two sets has, or both, to the first elements of `out`, and returns
/// how many they are.
///
/// The caller has to ensure that `out` has room for as many networks as both sets have together, and that these are in
/// normal form. The contract leaves open what is in `out` after the networks. It goes through both sets once.
///
/// ```
/// # use cidr::*;
/// # use cidr_table::Probe;
/// # use cidr_sets::{access::*, alloc::*, *};
/// let these = ["10.0.0.0/9".parse::<Ipv4Cidr>()?];
/// let those = ["10.128.0.0/9".parse()?, "192.0.2.0/24".parse()?];
/// let mut out = [Ipv4Cidr::null(); 3];
/// assert_eq!(slices::union(&these, &those, &mut out), 2);
/// assert_eq!(format!("{:?}", &out[..2]), "[10.0.0.0/8, 192.0.2.0/24]");
/// # Ok::<(), Box<dyn std::error::Error>>(())
/// ```
///
/// # Panics
///
/// Unless `are_reduced(these) && are_reduced(those) && these.len() + those.len() <= out.len()`.
#[inline]
pub fn union<C: NetworkBits + Copy>(these: &[C], those: &[C], out: &mut [C]) -> usize {
    assert!(crate::checks::are_reduced(these) && crate::checks::are_reduced(those) && these.len() + those.len() <= out.len());
    let count = merge(these, those, out);
    least_cover_in_place(&mut out[..count])
}

/// Writes the networks of the addresses that both of two sets have to the first elements of `out`, and returns how many
/// they are.
///
/// The caller has to ensure that `out` has room for one network less than both sets have together, and that these are in
/// normal form. The contract leaves open what is in `out` after the networks. It goes through both sets once, in at
/// most as many steps as both have networks.
///
/// ```
/// # use cidr::*;
/// # use cidr_table::Probe;
/// # use cidr_sets::{access::*, alloc::*, *};
/// let these = ["10.0.0.0/8".parse::<Ipv4Cidr>()?];
/// let those = ["10.1.0.0/16".parse()?, "192.0.2.0/24".parse()?];
/// let mut out = [Ipv4Cidr::null(); 2];
/// assert_eq!(slices::intersection(&these, &those, &mut out), 1);
/// assert_eq!(format!("{:?}", &out[..1]), "[10.1.0.0/16]");
/// # Ok::<(), Box<dyn std::error::Error>>(())
/// ```
///
/// # Panics
///
/// Unless `are_reduced(these) && are_reduced(those) && these.len() + those.len() <= out.len() + 1`.
#[inline]
pub fn intersection<C: NetworkBits + Copy>(these: &[C], those: &[C], out: &mut [C]) -> usize {
    assert!(crate::checks::are_reduced(these) && crate::checks::are_reduced(those) && these.len() + those.len() <= out.len() + 1);
    let mut filled = Filled::new(out);
    write_shared(&mut filled, these, those);
    filled.count()
}

/// Writes the networks of the addresses that the first of two sets has and the other has not to the first elements of
/// `out`, and returns how many they are; `None` exactly where `out` is too short for them.
///
/// The caller has to ensure that both sets are in normal form. It goes through both once, and joins nothing: what is
/// left of a set is in normal form as it is written. Each network of the other set adds at most as many networks as the
/// longest of these has bits. The contract leaves open what is in `out` after the networks, and after `None` in all of
/// it.
///
/// ```
/// # use cidr::*;
/// # use cidr_table::Probe;
/// # use cidr_sets::{access::*, alloc::*, *};
/// let set = NetworkSet::from_networks(Global, &["10.0.0.0/8".parse::<Ipv4Cidr>()?])?;
/// let part = NetworkSet::from_networks(Global, &["10.64.0.0/10".parse()?])?;
/// let mut out = [Ipv4Cidr::null(); 2];
/// assert_eq!(format!("{:?}", slices::difference(set.as_slice(), part.as_slice(), &mut out)), "Some(2)");
/// assert_eq!(format!("{:?}", out), "[10.0.0.0/10, 10.128.0.0/9]");
/// assert_eq!(format!("{:?}", slices::difference(set.as_slice(), part.as_slice(), &mut out[..1])), "None");
/// # Ok::<(), Box<dyn std::error::Error>>(())
/// ```
///
/// # Panics
///
/// Unless `are_reduced(these) && are_reduced(those)`.
#[inline]
pub fn difference<C: NetworkBits + Copy>(these: &[C], those: &[C], out: &mut [C]) -> Option<usize> {
    assert!(crate::checks::are_reduced(these) && crate::checks::are_reduced(those));
    let mut filled = Filled::new(out);
    write_rests(&mut filled, these, those).ok()?;
    Some(filled.count())
}

/// Writes the networks of the addresses of a network that a set has not to the first elements of `out`, and returns how
/// many they are; `None` exactly where `out` is too short for them.
///
/// The caller has to ensure that the set is in normal form. It goes through it once. Each network of the set adds at
/// most as many networks as the longest of these has bits. The contract leaves open what is in `out` after the
/// networks, and after `None` in all of it.
///
/// ```
/// # use cidr::*;
/// # use cidr_table::Probe;
/// # use cidr_sets::{access::*, alloc::*, *};
/// let part = NetworkSet::from_networks(Global, &["10.64.0.0/10".parse()?])?;
/// let mut out = [Ipv4Cidr::null(); 2];
/// assert_eq!(format!("{:?}", slices::complement_in(&"10.0.0.0/8".parse()?, part.as_slice(), &mut out)), "Some(2)");
/// assert_eq!(format!("{:?}", out), "[10.0.0.0/10, 10.128.0.0/9]");
/// # Ok::<(), Box<dyn std::error::Error>>(())
/// ```
///
/// # Panics
///
/// Unless `are_reduced(networks)`.
#[inline]
pub fn complement_in<C: NetworkBits + Copy>(
    network: &C,
    networks: &[C],
    out: &mut [C],
) -> Option<usize> {
    assert!(crate::checks::are_reduced(networks));
    let mut filled = Filled::new(out);
    write_complement(&mut filled, network, networks).ok()?;
    Some(filled.count())
}

/// Writes the networks of the addresses from the first to the last, both included, to the first elements of `out`, and
/// returns how many they are: none where the last comes before the first, and at most 62 in IPv4 and 254 in IPv6. `None`
/// exactly where `out` is too short for them.
///
/// Of `AnyIpCidr`, the addresses of IPv4 come before those of IPv6. It halves at most two networks of each length. The
/// contract leaves open what is in `out` after the networks, and after `None` in all of it.
///
/// ```
/// # use cidr::*;
/// # use cidr_table::Probe;
/// # use cidr_sets::{access::*, alloc::*, *};
/// let (first, last) = (Ipv4Addr::new(10, 0, 0, 1), Ipv4Addr::new(10, 0, 0, 6));
/// let mut out = [Ipv4Cidr::null(); 4];
/// assert_eq!(format!("{:?}", slices::from_range(first, last, &mut out)), "Some(4)");
/// assert_eq!(format!("{:?}", out), "[10.0.0.1/32, 10.0.0.2/31, 10.0.0.4/31, 10.0.0.6/32]");
/// # Ok::<(), Box<dyn std::error::Error>>(())
/// ```
#[inline]
pub fn from_range<C: Addressed + Copy>(
    first: C::Address,
    last: C::Address,
    out: &mut [C],
) -> Option<usize> {
    let mut filled = Filled::new(out);
    write_range(&mut filled, first, last).ok()?;
    Some(filled.count())
}

/// Makes a slice of networks, which may come in any order, overlap and repeat, the set of their addresses: it stands in
/// the first elements, and the call returns how many they are.
///
/// It sorts the slice in place: O(n log n). The contract leaves open what is in it after the set.
///
/// ```
/// # use cidr::*;
/// # use cidr_table::Probe;
/// # use cidr_sets::{access::*, alloc::*, *};
/// let mut networks: [Ipv4Cidr; 2] = ["10.128.0.0/9".parse()?, "10.0.0.0/9".parse()?];
/// assert_eq!(slices::from_networks(&mut networks), 1);
/// assert_eq!(format!("{:?}", networks.first()), "Some(10.0.0.0/8)");
/// # Ok::<(), Box<dyn std::error::Error>>(())
/// ```
#[inline]
pub fn from_networks<C: NetworkBits + Copy>(networks: &mut [C]) -> usize {
    networks.sort_unstable();
    let count = keep_distinct(networks);
    least_cover_in_place(&mut networks[..count])
}

/// Moves the first of each run of equal elements to the front, and returns how many they are.
fn keep_distinct<C: PartialEq + Copy>(elements: &mut [C]) -> usize {
    let mut kept = 0;
    for i in 0..elements.len() {
        let element = elements[i];
        if kept == 0 || element != elements[kept - 1] {
            elements[kept] = element;
            kept += 1;
        }
    }
    kept
}

/// Writes the networks of both lists, ascending, and each once.
#[inline]
fn merge<C: NetworkBits + Copy>(these: &[C], those: &[C], out: &mut [C]) -> usize {
    let mut filled = Filled::new(out);
    write_merged(&mut filled, these, those);
    filled.count()
}
