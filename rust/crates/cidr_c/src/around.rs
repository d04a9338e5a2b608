//! Networks and addresses around the network of a host.

use crate::codes::{NO_VALUE, OK};
use crate::finding::{
    joined, put_found_address, put_found_network, put_found_networks, put_number, put_plain,
    yes_or_no,
};
use crate::values::{CValue, address_of, ip_network_of, put_address, put_network, value_network};
use cidr::{IpAddr, IpCidr, Ipv4Addr, Ipv4Cidr};
use cidr_ext::{CidrExt, IpCidrExt, NetworkExt};
use cidr_lookup::Ipv6Halves;

/// The network of prefix length `len` that contains that of a host, or none where `len` is above the length of that.
#[inline]
pub fn pcidr_supernet_by_value(host: CValue, len: u8, out: &mut CValue) -> u32 {
    match ip_network_of(&host) {
        Some(network) => put_found_network(network.supernet(len), out),
        None => NO_VALUE,
    }
}

/// The network that is twice as large as that of a host and contains it, or none for 0.0.0.0/0 and ::/0.
#[inline]
pub fn pcidr_parent_by_value(host: CValue, out: &mut CValue) -> u32 {
    match ip_network_of(&host) {
        Some(network) => put_found_network(network.parent(), out),
        None => NO_VALUE,
    }
}

/// Both halves of the network of a host, or none where it has only one address.
#[inline]
pub fn pcidr_network_halves_by_value(
    host: CValue,
    lower: &mut CValue,
    upper: &mut CValue,
) -> u32 {
    match ip_network_of(&host) {
        Some(network) => put_found_networks(network.halves(), lower, upper),
        None => NO_VALUE,
    }
}

/// The other half of the parent of the network of a host, or none for 0.0.0.0/0 and ::/0.
#[inline]
pub fn pcidr_sibling_by_value(host: CValue, out: &mut CValue) -> u32 {
    match ip_network_of(&host) {
        Some(network) => put_found_network(network.sibling(), out),
        None => NO_VALUE,
    }
}

/// The network of the same length behind that of a host, or none for the last one of its length and family.
#[inline]
pub fn pcidr_next_network_by_value(host: CValue, out: &mut CValue) -> u32 {
    match ip_network_of(&host) {
        Some(network) => put_found_network(network.next_network(), out),
        None => NO_VALUE,
    }
}

/// The network of the same length before that of a host, or none for the first one of its length and family.
#[inline]
pub fn pcidr_previous_network_by_value(host: CValue, out: &mut CValue) -> u32 {
    match ip_network_of(&host) {
        Some(network) => put_found_network(network.previous_network(), out),
        None => NO_VALUE,
    }
}

/// The network of prefix length `len` at index high * 2^64 + low inside that of a host, counted from 0, or none where
/// there is none.
#[inline]
pub fn pcidr_subnet_by_value(
    host: CValue,
    len: u8,
    high: u64,
    low: u64,
    out: &mut CValue,
) -> u32 {
    match ip_network_of(&host) {
        Some(network) => put_found_network(network.subnet(len, joined(high, low)), out),
        None => NO_VALUE,
    }
}

/// The host mask of the network of a host, the inverse of its mask, as an address.
#[inline]
pub fn pcidr_host_mask_by_value(host: CValue, out: &mut CValue) -> u32 {
    let Some(network) = ip_network_of(&host) else {
        return NO_VALUE;
    };
    put_address(&host_mask(&network), out);
    OK
}

/// The host mask of a network.
#[inline]
fn host_mask(network: &IpCidr) -> IpAddr {
    match network {
        IpCidr::V4(network) => IpAddr::V4(ipv4_host_mask(network)),
        IpCidr::V6(network) => IpAddr::V6(network.host_mask()),
    }
}

/// The host mask of an IPv4 network, which `cidr_ext` makes in 128 bits.
#[inline(always)]
pub fn ipv4_host_mask(network: &Ipv4Cidr) -> Ipv4Addr {
    Ipv4Addr::from_bits(u32::MAX - network.mask().to_bits())
}

/// The address at index high * 2^64 + low of the network of a host, counted from 0, or none where the network has no more
/// addresses than that.
#[inline]
pub fn pcidr_nth_by_value(host: CValue, high: u64, low: u64, out: &mut CValue) -> u32 {
    match ip_network_of(&host) {
        Some(network) => put_found_address(network.nth(joined(high, low)), out),
        None => NO_VALUE,
    }
}

/// How many addresses the network of a host has, or none for ::/0, whose 2^128 two halves have no room for.
#[inline]
pub fn pcidr_address_count(host: &CValue, count: &mut Ipv6Halves) -> u32 {
    match ip_network_of(host) {
        Some(network) => put_number(network.address_count(), count),
        None => NO_VALUE,
    }
}

/// The index of an address in the network of a host, or none where it is not in that: the inverse of `pcidr_nth_by_value`.
#[inline]
pub fn pcidr_position(host: &CValue, address: &CValue, index: &mut Ipv6Halves) -> u32 {
    match (ip_network_of(host), address_of(address)) {
        (Some(network), Some(address)) => put_number(network.position(&address), index),
        _ => NO_VALUE,
    }
}

/// The first of the addresses that hosts may have of the network of a host: in IPv4 the second one of the network, but of a
/// /31 and a /32 network the first one, as in IPv6.
#[inline]
pub fn pcidr_first_usable_by_value(host: CValue, out: &mut CValue) -> u32 {
    match ip_network_of(&host) {
        Some(network) => put_found_address(first_usable(&network), out),
        None => NO_VALUE,
    }
}

/// The last of the addresses that hosts may have of the network of a host: in IPv4 the last but one of the network, but of
/// a /31 and a /32 network the last one, as in IPv6.
#[inline]
pub fn pcidr_last_usable_by_value(host: CValue, out: &mut CValue) -> u32 {
    match ip_network_of(&host) {
        Some(network) => put_found_address(last_usable(&network), out),
        None => NO_VALUE,
    }
}

/// The first of the addresses that hosts may have.
#[inline]
fn first_usable(network: &IpCidr) -> Option<IpAddr> {
    let mut hosts = network.usable_hosts();
    let host = hosts.next()?;
    Some(host.address())
}

/// The last of them.
#[inline]
fn last_usable(network: &IpCidr) -> Option<IpAddr> {
    let mut hosts = network.usable_hosts();
    let host = hosts.next_back()?;
    Some(host.address())
}

/// How many addresses hosts may have of the network of a host, or none where they are 2^64 or more.
#[inline]
pub fn pcidr_usable_count(host: &CValue, count: &mut usize) -> u32 {
    match ip_network_of(host) {
        Some(network) => put_plain(usable_count(&network), count),
        None => NO_VALUE,
    }
}

/// How many addresses hosts may have.
#[inline]
fn usable_count(network: &IpCidr) -> Option<usize> {
    network.usable_hosts().count()
}

/// The longest network that contains both of two networks, which may be `any`.
#[inline]
pub fn pcidr_spanning(one: &CValue, other: &CValue, out: &mut CValue) -> u32 {
    match (value_network(one), value_network(other)) {
        (Some(one), Some(other)) => {
            put_network(&one.spanning(&other), out);
            OK
        }
        _ => NO_VALUE,
    }
}

/// 1 where the networks of both hosts are the two halves of one, in either order, and 0 where not.
#[inline]
pub fn pcidr_is_sibling_of(one: &CValue, other: &CValue) -> u32 {
    match (ip_network_of(one), ip_network_of(other)) {
        (Some(one), Some(other)) => yes_or_no(one.is_sibling_of(&other)),
        _ => 0,
    }
}

/// 1 where both values are networks that have an address in common, and 0 where not.
#[inline]
pub fn pcidr_overlaps(one: &CValue, other: &CValue) -> u32 {
    match (value_network(one), value_network(other)) {
        (Some(one), Some(other)) => yes_or_no(one.overlaps(&other)),
        _ => 0,
    }
}
