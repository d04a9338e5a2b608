//! Networks, as an array has them.

use crate::address::Address;
use cidr::FamilyCidr;

/// A network, as it lies in an array: its first address and its prefix length, in 8 bytes for IPv4 and 24 for IPv6. Any
/// two numbers are a `Key`: `is_network` tells which are a network.
#[derive(Clone, Copy)]
#[repr(C)]
pub struct Key<A> {
    /// The first address.
    pub address: A,
    /// The prefix length: of a network at most 32 or 128.
    pub len: u32,
}

impl<A: Address> Key<A> {
    /// The key of a network. The caller has to ensure that the addresses of its family have as many bits: `u32` is for IPv4,
    /// and [`Ipv6Halves`](crate::Ipv6Halves) is for IPv6.
    ///
    /// ```
    /// # use cidr::Ipv4Cidr;
    /// # use cidr_lookup::*;
    /// # use cidr_support::alloc::Global;
    /// # use cidr_table::LpmTable;
    /// # use core::net::Ipv4Addr;
    /// assert_eq!(Key::<u32>::of(&"10.0.0.0/8".parse::<Ipv4Cidr>()?).address, 167772160);
    /// # Ok::<(), Box<dyn std::error::Error>>(())
    /// ```
    ///
    /// # Panics
    ///
    /// Unless `A::width() == u32::from(C::FAMILY.len())`.
    #[inline(always)]
    pub fn of<C: FamilyCidr>(network: &C) -> Key<A> {
        assert!(A::width() == u32::from(C::FAMILY.len()));
        let first = C::to_number(network.first_address());
        Key {
            address: A::of(first),
            len: u32::from(network.network_length()),
        }
    }

    /// Whether it is a network: its length is at most the width, 32 or 128, and no bit after the prefix is set.
    /// 10.0.0.1/8 is none.
    ///
    /// ```
    /// # use cidr::Ipv4Cidr;
    /// # use cidr_lookup::*;
    /// # use cidr_support::alloc::Global;
    /// # use cidr_table::LpmTable;
    /// # use core::net::Ipv4Addr;
    /// assert!(!(Key { address: 0x0a000001u32, len: 8 }.is_network()));
    /// # Ok::<(), Box<dyn std::error::Error>>(())
    /// ```
    #[inline]
    pub fn is_network(&self) -> bool {
        let width = A::width();
        if self.len > width {
            return false;
        }
        self.address.number() & ones(width - self.len) == 0
    }

    /// Whether it comes before the other: its first address is less, or that is the same and its length is. So
    /// 10.0.0.0/8 comes before 10.0.0.0/9, and this before 10.1.0.0/16.
    ///
    /// ```
    /// # use cidr::Ipv4Cidr;
    /// # use cidr_lookup::*;
    /// # use cidr_support::alloc::Global;
    /// # use cidr_table::LpmTable;
    /// # use core::net::Ipv4Addr;
    /// assert!(Key { address: 0x0a000000u32, len: 8 }.precedes(&Key { address: 0x0a000000, len: 9 }));
    /// # Ok::<(), Box<dyn std::error::Error>>(())
    /// ```
    #[inline]
    pub fn precedes(&self, other: &Key<A>) -> bool {
        let first = self.address.number();
        let next = other.address.number();
        first < next || first == next && self.len < other.len
    }

    /// The number of its last address.
    #[inline]
    pub(crate) fn last(&self) -> u128 {
        self.address.number() + ones(A::width() - self.len)
    }
}

/// The index of the first key, counted from 0, that is no network or doesn't come after the one before it, or `None`
/// where all are networks in their order. One pass over the keys: O(n).
///
/// ```
/// # use cidr::Ipv4Cidr;
/// # use cidr_lookup::*;
/// # use cidr_support::alloc::Global;
/// # use cidr_table::LpmTable;
/// # use core::net::Ipv4Addr;
/// assert_eq!(format!("{:?}", first_refused(&[Key { address: 0x0a000000u32, len: 8 }, Key { address: 0x0a000001, len: 8 }])), "Some(1)");
/// # Ok::<(), Box<dyn std::error::Error>>(())
/// ```
#[inline]
pub fn first_refused<A: Address>(keys: &[Key<A>]) -> Option<usize> {
    (0..keys.len()).find(|&index| !is_next(keys, index))
}

/// Whether a key is a network and comes after the one before it.
#[inline]
fn is_next<A: Address>(keys: &[Key<A>], index: usize) -> bool {
    keys[index].is_network() && (index == 0 || keys[index - 1].precedes(&keys[index]))
}

/// The number whose last bits, so many, are set and no other.
#[inline]
pub(crate) fn ones(bits: u32) -> u128 {
    if bits == 0 {
        return 0;
    }
    u128::MAX >> (128 - bits)
}
