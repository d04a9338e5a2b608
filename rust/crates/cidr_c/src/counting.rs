//! The addresses of a list of networks, those of one family: how many they are, and which has which index. The first error
//! is a value that is no network; no memory may come before it.

use cidr_support::vec::Vec;
use crate::codes::{NO_MEMORY, NO_VALUE};
use crate::finding::{joined, put_found_address, put_number};
use crate::values::{CValue, value_network};
use cidr::{AnyIpCidr, BitString, FamilyCidr, IpAddr, IpCidr, Ipv4Cidr, Ipv6Cidr};
use cidr_lookup::Ipv6Halves;
use cidr_sets::NetworkSet;
use cidr_support::alloc::Global;

/// The part of a network whose addresses are of the family, if there is one: of `any` all of them.
#[inline]
fn part_of<C: FamilyCidr>(network: &AnyIpCidr) -> Option<C> {
    match Option::<IpCidr>::from(*network) {
        Some(network) => C::from_ip(network),
        None => Some(C::null()),
    }
}

/// The set of the addresses of a family that some networks have, or the number of the error.
fn family_set<C: FamilyCidr>(alloc: Global, values: &[CValue]) -> Result<NetworkSet<C>, u32> {
    let Ok(mut networks) = Vec::with_capacity(alloc, values.len()) else {
        return Err(NO_MEMORY);
    };
    for value in values {
        let Some(network) = value_network(value) else {
            return Err(NO_VALUE);
        };
        if let Some(part) = part_of::<C>(&network) {
            let Ok(()) = networks.push(part) else {
                return Err(NO_MEMORY);
            };
        }
    }
    Ok(NetworkSet::from_vec(networks))
}

/// How many addresses of a family some networks have.
#[inline]
fn counted<C: FamilyCidr>(alloc: Global, networks: &[CValue], count: &mut Ipv6Halves) -> u32 {
    match family_set::<C>(alloc, networks) {
        Ok(set) => put_number(set.address_count(), count),
        Err(code) => code,
    }
}

/// The address at an index among those of a family that some networks have.
#[inline]
fn address_at<C: FamilyCidr>(
    alloc: Global,
    networks: &[CValue],
    high: u64,
    low: u64,
    out: &mut CValue,
) -> u32 {
    match family_set::<C>(alloc, networks) {
        Ok(set) => put_found_address(nth_of(&set, joined(high, low)), out),
        Err(code) => code,
    }
}

/// The address of a set at an index.
#[inline]
fn nth_of<C: FamilyCidr>(set: &NetworkSet<C>, index: u128) -> Option<IpAddr> {
    match set.nth(index) {
        Some(address) => Some(C::to_ip_address(address)),
        None => None,
    }
}

/// How many IPv4 addresses a list of networks has.
#[inline]
pub fn pcidr_count_ipv4(
    alloc: Global,
    networks: &[CValue],
    count: &mut Ipv6Halves,
) -> u32 {
    counted::<Ipv4Cidr>(alloc, networks, count)
}

/// How many IPv6 addresses a list of networks has, or none where it has all, whose 2^128 two halves have no room for.
#[inline]
pub fn pcidr_count_ipv6(
    alloc: Global,
    networks: &[CValue],
    count: &mut Ipv6Halves,
) -> u32 {
    counted::<Ipv6Cidr>(alloc, networks, count)
}

/// The IPv4 address at index high * 2^64 + low of those of a list of networks, counted from 0, ascending, or none where there
/// are no more than that.
#[inline]
pub fn pcidr_nth_ipv4(
    alloc: Global,
    networks: &[CValue],
    high: u64,
    low: u64,
    out: &mut CValue,
) -> u32 {
    address_at::<Ipv4Cidr>(alloc, networks, high, low, out)
}

/// The IPv6 address at index high * 2^64 + low of those of a list of networks, as `pcidr_nth_ipv4` has those of IPv4.
#[inline]
pub fn pcidr_nth_ipv6(
    alloc: Global,
    networks: &[CValue],
    high: u64,
    low: u64,
    out: &mut CValue,
) -> u32 {
    address_at::<Ipv6Cidr>(alloc, networks, high, low, out)
}
