//! Parts of values, and answers about them.

use crate::codes::{NO_VALUE, OK, WRAPPED, order_code};
use crate::finding::joined;
use crate::values::{
    CValue, host_of, ipv4_network, ipv6_network, is_ipv4, is_ipv6, put_address, put_host,
    put_network, value_network,
};
use cidr::{AnyIpCidr, BitString, IpInet, NetworkBits};
use cidr_sets::is_inside;
use core::cmp::Ordering;

/// The first address of the network of a host.
#[inline]
pub fn pcidr_first_by_value(host: CValue, out: &mut CValue) -> u32 {
    let Some(host) = host_of(&host) else {
        return NO_VALUE;
    };
    put_address(&host.first_address(), out);
    OK
}

/// The last address of the network of a host.
#[inline]
pub fn pcidr_last_by_value(host: CValue, out: &mut CValue) -> u32 {
    let Some(host) = host_of(&host) else {
        return NO_VALUE;
    };
    put_address(&host.last_address(), out);
    OK
}

/// The mask of the network of a host, as an address.
#[inline]
pub fn pcidr_mask_by_value(host: CValue, out: &mut CValue) -> u32 {
    let Some(host) = host_of(&host) else {
        return NO_VALUE;
    };
    put_address(&host.mask(), out);
    OK
}

/// The address of a host.
#[inline]
pub fn pcidr_address_by_value(host: CValue, out: &mut CValue) -> u32 {
    let Some(host) = host_of(&host) else {
        return NO_VALUE;
    };
    put_address(&host.address(), out);
    OK
}

/// The network of a host.
#[inline]
pub fn pcidr_network_by_value(host: CValue, out: &mut CValue) -> u32 {
    let Some(host) = host_of(&host) else {
        return NO_VALUE;
    };
    put_network(&AnyIpCidr::from(host.network()), out);
    OK
}

/// 1 where the value is a network, as each address is, and 0 where not.
#[inline]
pub fn pcidr_check(value: &CValue) -> u32 {
    match value_network(value) {
        Some(_) => 1,
        None => 0,
    }
}

/// 1 where both values are networks and every address of the second is in the first, and 0 where not. An address is the
/// network of itself.
pub fn pcidr_contains(outer: &CValue, inner: &CValue) -> u32 {
    if is_ipv4(outer) && is_ipv4(inner) {
        if let (Some(outer), Some(inner)) = (ipv4_network(outer), ipv4_network(inner)) {
            return contains(&outer, &inner);
        }
    }
    if is_ipv6(outer) && is_ipv6(inner) {
        if let (Some(outer), Some(inner)) = (ipv6_network(outer), ipv6_network(inner)) {
            return contains(&outer, &inner);
        }
    }
    match (value_network(outer), value_network(inner)) {
        (Some(outer), Some(inner)) => contains(&outer, &inner),
        _ => 0,
    }
}

/// 1 where the first network contains the second, and 0 where not, by their bits.
#[inline(always)]
fn contains<C: BitString>(outer: &C, inner: &C) -> u32 {
    u32::from(is_inside(inner, outer))
}

/// How two networks compare, by their bits.
#[inline(always)]
fn compared<C: NetworkBits>(one: &C, other: &C) -> u32 {
    order_code(one.cmp(other))
}

/// How two values compare by their fields: by tag, then by the number.
#[inline]
fn compared_fields(one: &CValue, other: &CValue) -> u32 {
    let by_number = one.high.cmp(&other.high).then(one.low.cmp(&other.low));
    order_code(one.tag.cmp(&other.tag).then(by_number))
}

/// 0, 1 or 2: the first value comes before the second, is the same, or comes after it. Of networks IPv4 comes before
/// IPv6, and `any` before both; in a family the lower first address comes first, and then the shorter prefix. What is
/// no network comes after all networks, in the order of its fields.
pub fn pcidr_compare(one: &CValue, other: &CValue) -> u32 {
    if is_ipv4(one) && is_ipv4(other) {
        if let (Some(one), Some(other)) = (ipv4_network(one), ipv4_network(other)) {
            return compared(&one, &other);
        }
    }
    if is_ipv6(one) && is_ipv6(other) {
        if let (Some(one), Some(other)) = (ipv6_network(one), ipv6_network(other)) {
            return compared(&one, &other);
        }
    }
    match (value_network(one), value_network(other)) {
        (Some(one), Some(other)) => compared(&one, &other),
        (Some(_), None) => order_code(Ordering::Less),
        (None, Some(_)) => order_code(Ordering::Greater),
        (None, None) => compared_fields(one, other),
    }
}

/// How two hosts compare, by their addresses and then by their prefix lengths.
#[inline]
fn compared_hosts(one: &IpInet, other: &IpInet) -> u32 {
    order_code(one.cmp(other))
}

/// 0, 1 or 2: the first value comes before the second, is the same, or comes after it. Of hosts IPv4 comes before IPv6;
/// in a family the lower address comes first, and then the shorter prefix. What is no host comes after all hosts, in
/// the order of its fields.
#[inline]
pub fn pcidr_compare_hosts(one: &CValue, other: &CValue) -> u32 {
    match (host_of(one), host_of(other)) {
        (Some(one), Some(other)) => compared_hosts(&one, &other),
        (Some(_), None) => order_code(Ordering::Less),
        (None, Some(_)) => order_code(Ordering::Greater),
        (None, None) => compared_fields(one, other),
    }
}

/// The host so many addresses further in its network, of which the count is high * 2^64 + low. Where that is beyond the
/// last address, it goes on from the first, and the number of `WRAPPED` is returned.
#[inline]
pub fn pcidr_step_up_by_value(host: CValue, high: u64, low: u64, out: &mut CValue) -> u32 {
    let Some(host) = host_of(&host) else {
        return NO_VALUE;
    };
    let (host, wraps) = host.overflowing_add(joined(high, low));
    put_host(&host, out);
    if wraps { WRAPPED } else { OK }
}

/// The host so many addresses back in its network, as `pcidr_step_up_by_value` goes further.
#[inline]
pub fn pcidr_step_down_by_value(
    host: CValue,
    high: u64,
    low: u64,
    out: &mut CValue,
) -> u32 {
    let Some(host) = host_of(&host) else {
        return NO_VALUE;
    };
    let (host, wraps) = host.overflowing_sub(joined(high, low));
    put_host(&host, out);
    if wraps { WRAPPED } else { OK }
}

/// The host at a position of the network of a host, counted from 0 at the first address, of which the number is high *
/// 2^64 + low: a walk by position. Beyond the last address it goes on as a step does.
#[inline]
pub fn pcidr_at_by_value(host: CValue, high: u64, low: u64, out: &mut CValue) -> u32 {
    let Some(host) = host_of(&host) else {
        return NO_VALUE;
    };
    let (host, wraps) = host.first().overflowing_add(joined(high, low));
    put_host(&host, out);
    if wraps { WRAPPED } else { OK }
}
