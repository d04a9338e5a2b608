//! The network of an address, as it is printed.

use cidr_support::arrayvec::ArrayString;
use cidr::{BitString, FamilyCidr, IpAddr, Ipv4Cidr, Ipv6Cidr};

/// The network of the first `len` bits of an address; of the address itself where `len` is above its width.
#[inline]
pub(crate) fn network_around<C: FamilyCidr>(address: C::Address, len: u8) -> C {
    let mut network = C::new_host(address);
    network.clip(usize::from(len));
    network
}

/// The network of the first `len` bits of an address, as it is printed, without a full prefix length; of the address
/// itself where `len` is above its width.
#[inline]
pub fn block_text(address: &IpAddr, len: u8) -> ArrayString<43> {
    match address {
        IpAddr::V4(address) => network_around::<Ipv4Cidr>(*address, len).to_text(),
        IpAddr::V6(address) => network_around::<Ipv6Cidr>(*address, len).to_text(),
    }
}
