//! The values that the work is done on: random ones for the rows that take one after the other, and fixed ones for
//! those that take pairs.

use crate::values::{
    ipv4_address, ipv4_network, ipv6_address, ipv6_network, is_ipv4, random, random_ipv4, random_ipv4_len, random_ipv6,
    random_ipv6_len, COUNT, MANY,
};
use cidr::{AnyIpCidr, IpAddr, IpCidr, Ipv4Addr, Ipv4Cidr, Ipv4Inet, Ipv6Addr, Ipv6Cidr, Ipv6Inet};
use cidr_support::alloc::{AllocError, Global};
use cidr_support::vec::Vec;
use core::array::from_fn;

/// A value of which there are random ones.
pub trait Sample: Sized {
    /// The one with this index. Those of other types with the same index are of the same host.
    fn sample(index: usize) -> Self;
}

/// As many random values as a row has.
pub fn samples<T: Sample>(alloc: Global) -> Result<Vec<T>, AllocError> {
    let mut values = Vec::with_capacity(alloc, MANY)?;
    for index in 0..MANY {
        values.push(T::sample(index))?;
    }
    Ok(values)
}

impl Sample for Ipv4Inet {
    fn sample(index: usize) -> Ipv4Inet {
        let address = Ipv4Addr::from_bits(random_ipv4(index));
        Ipv4Inet::new(address, random_ipv4_len(index)).unwrap_or(Ipv4Inet::new_host(address))
    }
}

impl Sample for Ipv6Inet {
    fn sample(index: usize) -> Ipv6Inet {
        let address = Ipv6Addr::from_bits(random_ipv6(index));
        Ipv6Inet::new(address, random_ipv6_len(index)).unwrap_or(Ipv6Inet::new_host(address))
    }
}

impl Sample for Ipv4Addr {
    fn sample(index: usize) -> Ipv4Addr {
        Ipv4Inet::sample(index).address()
    }
}

impl Sample for Ipv6Addr {
    fn sample(index: usize) -> Ipv6Addr {
        Ipv6Inet::sample(index).address()
    }
}

impl Sample for IpAddr {
    fn sample(index: usize) -> IpAddr {
        match IpCidr::sample(index) {
            IpCidr::V4(_) => IpAddr::V4(Ipv4Addr::sample(index)),
            IpCidr::V6(_) => IpAddr::V6(Ipv6Addr::sample(index)),
        }
    }
}

impl Sample for Ipv4Cidr {
    fn sample(index: usize) -> Ipv4Cidr {
        Ipv4Inet::sample(index).network()
    }
}

impl Sample for Ipv6Cidr {
    fn sample(index: usize) -> Ipv6Cidr {
        Ipv6Inet::sample(index).network()
    }
}

/// A network of one family or the other.
impl Sample for IpCidr {
    fn sample(index: usize) -> IpCidr {
        if random(index ^ 0x1000_0000) % 2 == 0 {
            IpCidr::V4(Ipv4Cidr::sample(index))
        } else {
            IpCidr::V6(Ipv6Cidr::sample(index))
        }
    }
}

/// A value of which there are 64 fixed ones.
pub trait Fixed: Sized {
    /// The one with this index.
    fn fixed(index: usize) -> Self;
}

/// All fixed values of a type.
pub fn fixed_values<T: Fixed>() -> [T; COUNT] {
    from_fn(|index| T::fixed(index))
}

/// The number of a round, by which values are sorted from another order.
#[derive(Clone, Copy)]
pub struct Order(pub u32);

impl Fixed for Order {
    fn fixed(index: usize) -> Order {
        Order(random_ipv4(index))
    }
}

impl Fixed for u32 {
    fn fixed(index: usize) -> u32 {
        ipv4_address(index)
    }
}

/// Small and large steps.
impl Fixed for u128 {
    fn fixed(index: usize) -> u128 {
        u128::from(random(index) >> (index % 64))
    }
}

impl Fixed for Ipv4Addr {
    fn fixed(index: usize) -> Ipv4Addr {
        Ipv4Addr::from_bits(ipv4_address(index))
    }
}

impl Fixed for Ipv6Addr {
    fn fixed(index: usize) -> Ipv6Addr {
        Ipv6Addr::from_bits(ipv6_address(index))
    }
}

/// Addresses of both families by turns.
impl Fixed for IpAddr {
    fn fixed(index: usize) -> IpAddr {
        if is_ipv4(index) {
            IpAddr::V4(Ipv4Addr::fixed(index))
        } else {
            IpAddr::V6(Ipv6Addr::fixed(index))
        }
    }
}

impl Fixed for Ipv4Inet {
    fn fixed(index: usize) -> Ipv4Inet {
        let (first, len) = ipv4_network(index);
        let first = Ipv4Addr::from_bits(first);
        Ipv4Inet::new(first, len).unwrap_or(Ipv4Inet::new_host(first))
    }
}

impl Fixed for Ipv6Inet {
    fn fixed(index: usize) -> Ipv6Inet {
        let (first, len) = ipv6_network(index);
        let first = Ipv6Addr::from_bits(first);
        Ipv6Inet::new(first, len).unwrap_or(Ipv6Inet::new_host(first))
    }
}

impl Fixed for Ipv4Cidr {
    fn fixed(index: usize) -> Ipv4Cidr {
        Ipv4Inet::fixed(index).network()
    }
}

impl Fixed for Ipv6Cidr {
    fn fixed(index: usize) -> Ipv6Cidr {
        Ipv6Inet::fixed(index).network()
    }
}

/// `Any`, and then the networks of both families.
impl Fixed for AnyIpCidr {
    fn fixed(index: usize) -> AnyIpCidr {
        match index {
            0 => AnyIpCidr::Any,
            at if is_ipv4(at) => AnyIpCidr::V4(Ipv4Cidr::fixed(at)),
            at => AnyIpCidr::V6(Ipv6Cidr::fixed(at)),
        }
    }
}
