//! Whether a network contains an address or another network.

use crate::bench::{Bench, Call2};
use crate::samples::fixed_values;
use cidr::{AnyIpCidr, Cidr, IpAddr, Ipv4Addr, Ipv4Cidr, Ipv6Addr, Ipv6Cidr};
use cidr_support::alloc::AllocError;

struct Contains;

impl<C: Cidr> Call2<C, C::Address> for Contains {
    fn number(&self, network: &C, address: &C::Address) -> u32 {
        u32::from(network.contains(address))
    }
}

struct AnyContains;

impl Call2<AnyIpCidr, IpAddr> for AnyContains {
    fn number(&self, network: &AnyIpCidr, address: &IpAddr) -> u32 {
        u32::from(network.contains(address))
    }
}

struct ContainsCidr;

impl Call2<Ipv4Cidr, Ipv4Cidr> for ContainsCidr {
    fn number(&self, outer: &Ipv4Cidr, inner: &Ipv4Cidr) -> u32 {
        u32::from(outer.contains_cidr(inner))
    }
}

/// Times whether a network contains an address of its family.
fn time_families(bench: &Bench<'_>) -> Result<(), AllocError> {
    let (networks, addresses) = (fixed_values::<Ipv4Cidr>(), fixed_values::<Ipv4Addr>());
    bench.pairs("contains IPv4", Contains, &networks, &addresses)?;
    let (networks, addresses) = (fixed_values::<Ipv6Cidr>(), fixed_values::<Ipv6Addr>());
    bench.pairs("contains IPv6", Contains, &networks, &addresses)
}

/// Times whether a network contains an address or another network.
pub fn time_all(bench: &Bench<'_>) -> Result<(), AllocError> {
    time_families(bench)?;
    let (networks, addresses) = (fixed_values::<AnyIpCidr>(), fixed_values::<IpAddr>());
    bench.pairs("contains AnyIpCidr", AnyContains, &networks, &addresses)?;
    let networks = fixed_values::<Ipv4Cidr>();
    bench.pairs("contains_cidr IPv4", ContainsCidr, &networks, &networks)
}
