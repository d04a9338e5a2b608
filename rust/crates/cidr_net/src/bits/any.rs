//! Networks of either family, or every address, as strings of bits.

use crate::cidr::network::NetworkCalls as _;
use crate::inet::host::HostCalls as _;
use crate::inet_pair::host_pair::HostPairCalls as _;
use crate::bits::network::shared_length;
use crate::bits::{BitString, NetworkBits};
use crate::cidr::any::AnyIpCidr;
use crate::cidr::network::{Ipv4Cidr, Ipv6Cidr, Network};
use crate::internal_traits::single_bits::SingleBits;

/// The network of all addresses of the family that a bit names: ::/0 for a set one.
#[inline]
fn of_family(ipv6: bool) -> AnyIpCidr {
    if ipv6 {
        AnyIpCidr::V6(Ipv6Cidr::null())
    } else {
        AnyIpCidr::V4(Ipv4Cidr::null())
    }
}

/// Leaves the first `k` bits of a network, of which the family bit in front is one.
#[inline]
fn clip_behind_family<A: SingleBits>(network: &mut Network<A>, k: usize) {
    // the call tells the proof that the prefix length fits
    network.network_length();
    network.clip(k - 1);
}

impl BitString for AnyIpCidr {
    #[inline]
    fn len(&self) -> usize {
        match self {
            AnyIpCidr::Any => 0,
            AnyIpCidr::V4(network) => usize::from(network.network_length()) + 1,
            AnyIpCidr::V6(network) => usize::from(network.network_length()) + 1,
        }
    }

    #[inline]
    fn room(&self) -> usize {
        match self {
            AnyIpCidr::Any => 33,
            AnyIpCidr::V4(network) => usize::from(32 - network.network_length()),
            AnyIpCidr::V6(network) => usize::from(128 - network.network_length()),
        }
    }

    #[inline]
    fn get(&self, i: usize) -> bool {
        assert!(i < self.len());
        match self {
            AnyIpCidr::Any => false,
            AnyIpCidr::V4(network) => i > 0 && network.get(i - 1),
            AnyIpCidr::V6(network) => i == 0 || network.get(i - 1),
        }
    }

    fn set(&mut self, i: usize, b: bool) {
        assert!(i < self.len());
        if i == 0 {
            *self = of_family(b);
            return;
        }
        match self {
            AnyIpCidr::Any => {}
            AnyIpCidr::V4(network) => network.set(i - 1, b),
            AnyIpCidr::V6(network) => network.set(i - 1, b),
        }
    }

    fn flip(&mut self, i: usize) {
        assert!(i < self.len());
        if i == 0 {
            let ipv6 = self.get(i);
            *self = of_family(!ipv6);
            return;
        }
        match self {
            AnyIpCidr::Any => {}
            AnyIpCidr::V4(network) => network.flip(i - 1),
            AnyIpCidr::V6(network) => network.flip(i - 1),
        }
    }

    fn clip(&mut self, k: usize) {
        if k == 0 {
            *self = AnyIpCidr::Any;
            return;
        }
        match self {
            AnyIpCidr::Any => {}
            AnyIpCidr::V4(network) => clip_behind_family(network, k),
            AnyIpCidr::V6(network) => clip_behind_family(network, k),
        }
    }

    #[inline]
    fn append(&mut self, b: bool) {
        assert!(0 < self.room());
        match self {
            AnyIpCidr::Any => *self = of_family(b),
            AnyIpCidr::V4(network) => network.append(b),
            AnyIpCidr::V6(network) => network.append(b),
        }
    }

    #[inline]
    fn null() -> AnyIpCidr {
        AnyIpCidr::Any
    }

    #[inline]
    fn shared_prefix_len(&self, other: &AnyIpCidr) -> usize {
        let shared = match (self, other) {
            (AnyIpCidr::V4(one), AnyIpCidr::V4(other)) => shared_length(one, other),
            (AnyIpCidr::V6(one), AnyIpCidr::V6(other)) => shared_length(one, other),
            _ => return 0,
        };
        usize::from(shared) + 1
    }
}

impl NetworkBits for AnyIpCidr {}
