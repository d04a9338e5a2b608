//! Networks by the numbers of their addresses.

use cidr::{FamilyCidr, IpCidr};

/// The network of the address with a number, without its last so many bits.
#[inline]
pub(crate) fn network_of<C: FamilyCidr>(n: u128, left: u32) -> IpCidr {
    let mut network = C::new_host(C::from_number(n));
    network.clip(u32::from(C::FAMILY.len()).saturating_sub(left) as usize);
    network.to_ip()
}

/// The number of the last address of a network.
#[inline]
pub(crate) fn last_number(network: &IpCidr) -> u128 {
    match network {
        IpCidr::V4(network) => network.ends().1,
        IpCidr::V6(network) => network.ends().1,
    }
}
