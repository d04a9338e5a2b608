//! Ranges of addresses: from a first to a last one.

use cidr_support::vec::Vec;
use crate::set::NetworkSet;
use crate::spans::write_range;
use cidr::{AnyIpCidr, BitString, IpAddr, Ipv4Addr, Ipv4Cidr, Ipv6Addr, Ipv6Cidr, NetworkBits};
use cidr_support::alloc::{AllocError, Global};
use core::iter::FusedIterator;

/// Networks and the type of their addresses. `Ipv4Cidr`, `Ipv6Cidr` and `AnyIpCidr` implement it.
pub trait Addressed: Sized + NetworkBits {
    /// The addresses: `Ipv4Addr`, `Ipv6Addr` or `IpAddr`.
    type Address: Copy;

    /// The network that has only this address.
    ///
    /// ```
    /// # use cidr::*;
    /// # use cidr_table::Probe;
    /// # use cidr_sets::{access::*, alloc::*, *};
    /// assert_eq!(format!("{}", Ipv4Cidr::single(Ipv4Addr::new(192, 0, 2, 1))), "192.0.2.1");
    /// # Ok::<(), Box<dyn std::error::Error>>(())
    /// ```
    fn single(address: Self::Address) -> Self;

    /// The lowest address of the network; of `Any` that is 0.0.0.0.
    ///
    /// ```
    /// # use cidr::*;
    /// # use cidr_table::Probe;
    /// # use cidr_sets::{access::*, alloc::*, *};
    /// assert_eq!(format!("{}", "192.0.2.0/24".parse::<Ipv4Cidr>()?.lowest()), "192.0.2.0");
    /// # Ok::<(), Box<dyn std::error::Error>>(())
    /// ```
    fn lowest(&self) -> Self::Address;

    /// The highest address of the network; of `Any` that is ffff:ffff:ffff:ffff:ffff:ffff:ffff:ffff.
    ///
    /// ```
    /// # use cidr::*;
    /// # use cidr_table::Probe;
    /// # use cidr_sets::{access::*, alloc::*, *};
    /// assert_eq!(format!("{}", "192.0.2.0/24".parse::<Ipv4Cidr>()?.highest()), "192.0.2.255");
    /// # Ok::<(), Box<dyn std::error::Error>>(())
    /// ```
    fn highest(&self) -> Self::Address;
}

impl Addressed for Ipv4Cidr {
    type Address = Ipv4Addr;

    #[inline]
    fn single(address: Ipv4Addr) -> Ipv4Cidr {
        Ipv4Cidr::new_host(address)
    }

    #[inline]
    fn lowest(&self) -> Ipv4Addr {
        self.first_address()
    }

    #[inline]
    fn highest(&self) -> Ipv4Addr {
        self.last_address()
    }
}

impl Addressed for Ipv6Cidr {
    type Address = Ipv6Addr;

    #[inline]
    fn single(address: Ipv6Addr) -> Ipv6Cidr {
        Ipv6Cidr::new_host(address)
    }

    #[inline]
    fn lowest(&self) -> Ipv6Addr {
        self.first_address()
    }

    #[inline]
    fn highest(&self) -> Ipv6Addr {
        self.last_address()
    }
}

impl Addressed for AnyIpCidr {
    type Address = IpAddr;

    #[inline]
    fn single(address: IpAddr) -> AnyIpCidr {
        AnyIpCidr::new_host(address)
    }

    #[inline]
    fn lowest(&self) -> IpAddr {
        match self {
            AnyIpCidr::Any => IpAddr::V4(Ipv4Cidr::null().first_address()),
            AnyIpCidr::V4(network) => IpAddr::V4(network.first_address()),
            AnyIpCidr::V6(network) => IpAddr::V6(network.first_address()),
        }
    }

    #[inline]
    fn highest(&self) -> IpAddr {
        match self {
            AnyIpCidr::Any => IpAddr::V6(Ipv6Cidr::null().last_address()),
            AnyIpCidr::V4(network) => IpAddr::V4(network.last_address()),
            AnyIpCidr::V6(network) => IpAddr::V6(network.last_address()),
        }
    }
}

impl<C: Addressed + Copy> NetworkSet<C> {
    /// The set of the addresses from the first to the last, both included, as `first..=last` has them: empty where the
    /// last comes before the first.
    ///
    /// It has at most 62 networks in IPv4 and 254 in IPv6, which bounds its time too. Of `AnyIpCidr`, the addresses of
    /// IPv4 come before those of IPv6. Where an allocation fails, it returns the error.
    ///
    /// ```
    /// # use cidr::*;
    /// # use cidr_table::Probe;
    /// # use cidr_sets::{access::*, alloc::*, *};
    /// let (first, last) = (Ipv4Addr::new(10, 0, 0, 1), Ipv4Addr::new(10, 0, 0, 6));
    /// let set = NetworkSet::<Ipv4Cidr>::from_range(Global, first, last)?;
    /// assert_eq!(format!("{:?}", set.as_slice()), "[10.0.0.1/32, 10.0.0.2/31, 10.0.0.4/31, 10.0.0.6/32]");
    /// # Ok::<(), Box<dyn std::error::Error>>(())
    /// ```
    ///
    /// # Errors
    ///
    /// `AllocError` where memory runs out.
    #[inline]
    pub fn from_range(
        alloc: Global,
        first: C::Address,
        last: C::Address,
    ) -> Result<Self, AllocError> {
        let mut networks = Vec::new(alloc);
        write_range(&mut networks, first, last)?;
        Ok(NetworkSet::of_reduced(networks))
    }

    /// The longest ranges of addresses in the set, ascending. No two touch: between one and the next is an address that
    /// isn't in the set. The set of one range, as `from_range` makes it, has that range alone.
    ///
    /// It allocates nothing, and looks at each network once. Of `AnyIpCidr`, a range can go from 255.255.255.255 on to
    /// ::, which comes next.
    ///
    /// ```
    /// # use cidr::*;
    /// # use cidr_table::Probe;
    /// # use cidr_sets::{access::*, alloc::*, *};
    /// let set = ["10.0.0.1".parse()?, "10.0.0.2/31".parse()?, "10.0.0.4/31".parse()?, "10.0.0.6".parse()?];
    /// let set: NetworkSet<Ipv4Cidr> = set.into_iter().collect();
    /// assert_eq!(format!("{:?}", set.ranges().next()), "Some(AddressRange { first: 10.0.0.1, last: 10.0.0.6 })");
    /// # Ok::<(), Box<dyn std::error::Error>>(())
    /// ```
    #[inline]
    pub fn ranges(&self) -> Ranges<'_, C> {
        let networks = self.as_slice();
        Ranges { networks }
    }
}

/// Addresses from a first to a last one, both included.
#[derive(Debug, Clone, Copy, PartialEq, Eq)]
pub struct AddressRange<A: Copy> {
    /// The first address.
    pub first: A,
    /// The last address.
    pub last: A,
}

/// The longest ranges of a set that are left, ascending. The call `ranges` makes it. A step goes through the networks
/// of one range, and allocates nothing.
pub struct Ranges<'a, C: Addressed + Copy> {
    networks: &'a [C],
}

impl<'a, C: Addressed + Copy> Iterator for Ranges<'a, C> {
    type Item = AddressRange<C::Address>;

    fn next(&mut self) -> Option<AddressRange<C::Address>> {
        let (first, mut behind) = self.networks.split_first()?;
        let mut last = first;
        while let Some((next, rest)) = behind.split_first() {
            if !touches(last, next) {
                break;
            }
            last = next;
            behind = rest;
        }
        self.networks = behind;
        Some(AddressRange {
            first: first.lowest(),
            last: last.highest(),
        })
    }
}

impl<'a, C: Addressed + Copy> FusedIterator for Ranges<'a, C> {}

/// Whether no address is between two networks, of which the first comes before the other.
fn touches<C: BitString>(network: &C, next: &C) -> bool {
    let shared = network.shared_prefix_len(next);
    if shared >= network.len() || shared >= next.len() {
        return false;
    }
    if network.get(shared) {
        return false;
    }
    all_from(network, shared + 1, true) && all_from(next, shared + 1, false)
}

/// Whether each bit of a network from an index on is `bit`.
#[inline]
pub(crate) fn all_from<C: BitString>(network: &C, from: usize, bit: bool) -> bool {
    (from..network.len()).all(|i| network.get(i) == bit)
}
