//! Free networks of a set: pools.

use crate::set::NetworkSet;
use cidr::names::{AnyIpCidr, BitString, Ipv4Cidr, Ipv6Cidr, NetworkBits};

/// Networks of which it is known how long those inside them can be, for the calls of a set that find free networks.
/// `Ipv4Cidr`, `Ipv6Cidr` and `AnyIpCidr` implement it.
pub trait PoolNetwork: Sized + NetworkBits {}

impl PoolNetwork for Ipv4Cidr {}

impl PoolNetwork for Ipv6Cidr {}

impl PoolNetwork for AnyIpCidr {}

impl<C: PoolNetwork + Copy> NetworkSet<C> {
    /// The first network of `len` bits all of whose addresses are in the set, or `None` where there is none.
    ///
    /// `len` is the prefix length, and for `AnyIpCidr` one more, as `BitString::len` counts; of one above the width
    /// there is none. It looks at each network of the set once: O(n). The set stays as it is: `remove` takes what is
    /// returned.
    ///
    /// ```
    /// # use cidr::names::*;
    /// # use cidr_table::Probe;
    /// # use cidr_sets::{access::*, alloc::*, *};
    /// let free = ["10.0.0.0/24".parse()?, "10.0.1.64/26".parse()?, "10.0.2.0/23".parse()?];
    /// let free: NetworkSet<Ipv4Cidr> = free.into_iter().collect();
    /// assert_eq!(format!("{:?}", free.as_slice()), "[10.0.0.0/24, 10.0.1.64/26, 10.0.2.0/23]");
    /// assert_eq!(format!("{:?}", free.first_free(26)), "Some(10.0.0.0/26)");
    /// # Ok::<(), Box<dyn std::error::Error>>(())
    /// ```
    #[inline]
    pub fn first_free(&self, len: usize) -> Option<C> {
        self.as_slice()
            .iter()
            .find_map(|network| first_subnet(network, len))
    }

    /// The first network of `len` bits in the smallest network of the set that has one, of equally small ones in the
    /// first, or `None` where there is none. So what is large stays whole.
    ///
    /// `len` is the prefix length, and for `AnyIpCidr` one more, as `BitString::len` counts; of one above the width
    /// there is none. The smallest network has the fewest addresses: one of IPv4 has fewer than any of IPv6 with room
    /// for the same prefix length. It looks at each network of the set once: O(n). The set stays as it is: `remove`
    /// takes what is returned.
    ///
    /// ```
    /// # use cidr::names::*;
    /// # use cidr_table::Probe;
    /// # use cidr_sets::{access::*, alloc::*, *};
    /// let free = ["10.0.0.0/24".parse()?, "10.0.1.64/26".parse()?, "10.0.2.0/23".parse()?];
    /// let free: NetworkSet<Ipv4Cidr> = free.into_iter().collect();
    /// assert_eq!(format!("{:?}", free.as_slice()), "[10.0.0.0/24, 10.0.1.64/26, 10.0.2.0/23]");
    /// assert_eq!(format!("{:?}", free.first_free(26)), "Some(10.0.0.0/26)");
    /// assert_eq!(format!("{:?}", free.best_free(26)), "Some(10.0.1.64/26)");
    /// # Ok::<(), Box<dyn std::error::Error>>(())
    /// ```
    pub fn best_free(&self, len: usize) -> Option<C> {
        let mut best: Option<(C, C)> = None;
        for network in self.as_slice() {
            if is_smaller(network, &best) {
                if let Some(first) = first_subnet(network, len) {
                    best = Some((*network, first));
                }
            }
        }
        match &best {
            Some((_, first)) => Some(*first),
            None => None,
        }
    }
}

/// Whether a network is smaller than the best so far, if there is one, by the room that each has.
#[inline]
fn is_smaller<C: BitString>(network: &C, best: &Option<(C, C)>) -> bool {
    match best {
        Some((best, _)) => network.room() < best.room(),
        None => true,
    }
}

/// The first network of `len` bits in a network, or `None` where there is none.
///
/// `Any` has room only for what both families have room for, so that its two halves are asked.
fn first_subnet<C: PoolNetwork + Copy>(network: &C, len: usize) -> Option<C> {
    if len < network.len() {
        return None;
    }
    if len <= network.len() + network.room() {
        return Some(lowest(network, len));
    }
    if network.len() > 0 {
        return None;
    }
    match first_in_half(false, len) {
        Some(first) => Some(first),
        None => first_in_half(true, len),
    }
}

/// The first network of `len` bits in the lower or upper half of the network of no bits, or `None` where there is none.
#[inline]
fn first_in_half<C: PoolNetwork + Copy>(upper: bool, len: usize) -> Option<C> {
    let mut half = C::null();
    half.append(upper);
    if len > 0 && len <= 1 + half.room() {
        Some(lowest(&half, len))
    } else {
        None
    }
}

/// The first network of `len` bits in a network that has room for it.
#[inline]
fn lowest<C: BitString + Copy>(network: &C, len: usize) -> C {
    let mut lowest = *network;
    while lowest.len() < len {
        lowest.append(false);
    }
    lowest
}
