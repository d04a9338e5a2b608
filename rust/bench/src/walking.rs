//! All addresses of a network, one after the other.

use crate::bench::{Bench, Work};
use crate::numbers::Number;
use crate::values::mixed;
use cidr::{Address, Cidr, Inet, InetPair, IpCidr, Ipv4Addr, Ipv4Cidr, Ipv6Addr, Ipv6Cidr};
use cidr_support::alloc::AllocError;

/// How many addresses the networks have.
const SIZE: usize = 256;

/// The first address of the IPv4 network, 192.0.2.0.
const IPV4_FIRST: u32 = 0xc000_0200;

/// The first address of the IPv6 network, 2001:db8::.
const IPV6_FIRST: u128 = 0x2001_0db8_0000_0000_0000_0000_0000_0000;

/// Walks over the networks.
struct Walk<'a, C>(&'a [C]);

impl<A, C> Work for Walk<'_, C>
where
    A: Address<InetPair: InetPair<Address = A>, Inet: Inet<Address = A>> + Number,
    C: Cidr<Address = A>,
{
    #[inline(never)]
    fn round(&mut self, _round: u32, sum: u32) -> u32 {
        let mut sum = sum;
        for network in self.0 {
            for address in network.iter().addresses() {
                sum = mixed(sum, address.number());
            }
        }
        sum
    }
}

/// Times a walk, for each address of it.
pub fn time_all(bench: &Bench<'_>) -> Result<(), AllocError> {
    let (first_v4, first_v6) = (Ipv4Addr::from_bits(IPV4_FIRST), Ipv6Addr::from_bits(IPV6_FIRST));
    let v4 = Ipv4Cidr::new(first_v4, 24).unwrap_or(Ipv4Cidr::new_host(first_v4));
    let v6 = Ipv6Cidr::new(first_v6, 120).unwrap_or(Ipv6Cidr::new_host(first_v6));
    bench.time("walk IPv4", SIZE, Walk(&[v4]))?;
    bench.time("walk IPv6", SIZE, Walk(&[v6]))?;
    let both = [IpCidr::V4(v4), IpCidr::V6(v6)];
    bench.time("walk IpCidr", 2 * SIZE, Walk(&both))
}
