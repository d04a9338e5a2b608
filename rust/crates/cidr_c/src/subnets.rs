//! The subnets of a network, many at once.

use crate::codes::{NO_VALUE, NONE, OK};
use crate::finding::joined;
use crate::values::{CValue, ip_network_of, put_ip_network};
use cidr::IpCidr;
use cidr_ext::CidrExt;

/// The networks of prefix length `len` inside that of a host, from index high * 2^64 + low on, as many as there are and the
/// room has places for: 0, and `count` becomes how many. Else the number of the error: of the host, or that no network
/// inside has that length.
pub fn pcidr_subnets(
    host: &CValue,
    len: u8,
    high: u64,
    low: u64,
    out: &mut [CValue],
    count: &mut usize,
) -> u32 {
    let Some(network) = ip_network_of(host) else {
        return NO_VALUE;
    };
    let Some(_) = network.subnet(len, 0) else {
        return NONE;
    };
    *count = put_subnets(&network, len, joined(high, low), out);
    OK
}

/// Puts the subnets from an index on to the front of a room, and returns how many.
#[inline]
fn put_subnets(network: &IpCidr, len: u8, index: u128, out: &mut [CValue]) -> usize {
    for n in 0..out.len() {
        let Some(subnet) = subnet_behind(network, len, index, n) else {
            return n;
        };
        put_ip_network(&subnet, &mut out[n]);
    }
    out.len()
}

/// The subnet so many indexes behind one.
#[inline]
fn subnet_behind(network: &IpCidr, len: u8, index: u128, n: usize) -> Option<IpCidr> {
    match index.checked_add(n as u128) {
        Some(index) => network.subnet(len, index),
        None => None,
    }
}
