//! IPv4 inside IPv6.

use crate::codes::NO_VALUE;
use crate::finding::{put_found_address, put_found_network};
use crate::values::{CValue, address_of, ip_network_of};
use cidr::{IpAddr, IpCidr};
use cidr_ext::{Ipv4CidrExt, Ipv6AddrExt, Ipv6CidrExt};

/// The network of the IPv4-mapped addresses of the network of a host, ::ffff:192.0.2.0/120 of 192.0.2.0/24, or none of an
/// IPv6 host.
#[inline]
pub fn pcidr_ipv6_mapped_by_value(host: CValue, out: &mut CValue) -> u32 {
    match ip_network_of(&host) {
        Some(network) => put_found_network(ipv6_mapped(&network), out),
        None => NO_VALUE,
    }
}

/// The IPv4 network of a network of IPv4-mapped addresses, that of a host, or none where it isn't inside ::ffff:0:0/96.
#[inline]
pub fn pcidr_ipv4_mapped_by_value(host: CValue, out: &mut CValue) -> u32 {
    match ip_network_of(&host) {
        Some(network) => put_found_network(ipv4_mapped(&network), out),
        None => NO_VALUE,
    }
}

/// The IPv4 address of the site of a 6to4 address, or none outside of 2002::/16.
#[inline]
pub fn pcidr_ipv4_6to4_by_value(address: CValue, out: &mut CValue) -> u32 {
    match address_of(&address) {
        Some(address) => put_found_address(ipv4_6to4(&address), out),
        None => NO_VALUE,
    }
}

/// The IPv4 address in an address with the well-known prefix of translation, or none outside of 64:ff9b::/96.
#[inline]
pub fn pcidr_ipv4_nat64_by_value(address: CValue, out: &mut CValue) -> u32 {
    match address_of(&address) {
        Some(address) => put_found_address(ipv4_nat64(&address), out),
        None => NO_VALUE,
    }
}

/// The network of the IPv4-mapped addresses of an IPv4 network.
#[inline]
fn ipv6_mapped(network: &IpCidr) -> Option<IpCidr> {
    match network {
        IpCidr::V4(network) => Some(IpCidr::V6(network.to_ipv6_mapped())),
        IpCidr::V6(_) => None,
    }
}

/// The IPv4 network of a network of IPv4-mapped addresses.
#[inline]
fn ipv4_mapped(network: &IpCidr) -> Option<IpCidr> {
    match network {
        IpCidr::V4(_) => None,
        IpCidr::V6(network) => Some(IpCidr::V4(network.to_ipv4_mapped()?)),
    }
}

/// The IPv4 address of the site of a 6to4 address.
#[inline]
fn ipv4_6to4(address: &IpAddr) -> Option<IpAddr> {
    match address {
        IpAddr::V4(_) => None,
        IpAddr::V6(address) => Some(IpAddr::V4(address.to_ipv4_6to4()?)),
    }
}

/// The IPv4 address in an address of translation.
#[inline]
fn ipv4_nat64(address: &IpAddr) -> Option<IpAddr> {
    match address {
        IpAddr::V4(_) => None,
        IpAddr::V6(address) => Some(IpAddr::V4(address.to_ipv4_nat64()?)),
    }
}
