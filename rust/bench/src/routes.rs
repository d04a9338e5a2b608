//! Networks like those of the routing tables of the Internet, and addresses that are asked for.

use crate::values::{random, random_ipv4, random_ipv4_len, random_ipv6_len};
use cidr::{Ipv4Addr, Ipv4Cidr, Ipv4Inet, Ipv6Addr, Ipv6Cidr, Ipv6Inet, NetworkBits};
use cidr_support::alloc::{AllocError, Global};
use cidr_support::vec::Vec;
use cidr_table::LpmTable;

/// How many different addresses are asked for in a round.
pub const ASKED: usize = 50_000;

/// The first 16 bits of IPv6 networks, of which there are few.
const IPV6_STARTS: [u16; 16] = [
    0x2001, 0x2001, 0x2400, 0x2402, 0x2404, 0x2406, 0x2409, 0x240e, 0x2600, 0x2602, 0x2604, 0x2607, 0x2803, 0x2a00,
    0x2a02, 0x2c0f,
];

/// Networks of one family.
pub trait Route: Sized + NetworkBits + Copy {
    /// A random network with so many bits more than one of a routing table. One bit near the front is never set.
    fn longer_route(index: usize, more: u8) -> Self;

    /// An address of this network, as a network of its own.
    fn inside(&self, random: u64) -> Self;

    /// An address that no route contains, since it has that bit.
    fn outside(index: usize) -> Self;
}

impl Route for Ipv4Cidr {
    fn longer_route(index: usize, more: u8) -> Ipv4Cidr {
        let address = Ipv4Addr::from_bits(random_ipv4(index) & 0xfeff_ffff);
        Ipv4Inet::new(address, random_ipv4_len(index).saturating_add(more).min(32))
            .unwrap_or(Ipv4Inet::new_host(address))
            .network()
    }

    fn inside(&self, random: u64) -> Ipv4Cidr {
        let first = self.first_address().to_bits();
        let last = self.last_address().to_bits();
        Ipv4Cidr::new_host(Ipv4Addr::from_bits(
            first | (random & 0xffff_ffff) as u32 & (first ^ last),
        ))
    }

    fn outside(index: usize) -> Ipv4Cidr {
        Ipv4Cidr::new_host(Ipv4Addr::from_bits(random_ipv4(index) | 0x0100_0000))
    }
}

/// The number of a random address that begins as IPv6 networks do.
fn random_start(index: usize) -> u128 {
    let high = random(index);
    let start = u64::from(IPV6_STARTS[(high % 16) as usize]);
    u128::from(start << 48 | high >> 16) << 64 | u128::from(random(index ^ 0x4000_0000))
}

/// The bit that no IPv6 route has set.
const IPV6_BIT: u128 = 1 << 107;

impl Route for Ipv6Cidr {
    fn longer_route(index: usize, more: u8) -> Ipv6Cidr {
        let address = Ipv6Addr::from_bits(random_start(index) & !IPV6_BIT);
        Ipv6Inet::new(address, random_ipv6_len(index).saturating_add(more).min(128))
            .unwrap_or(Ipv6Inet::new_host(address))
            .network()
    }

    fn inside(&self, random: u64) -> Ipv6Cidr {
        let first = self.first_address().to_bits();
        let last = self.last_address().to_bits();
        let host = u128::from(random) << 64 | u128::from(random);
        Ipv6Cidr::new_host(Ipv6Addr::from_bits(first | host & (first ^ last)))
    }

    fn outside(index: usize) -> Ipv6Cidr {
        Ipv6Cidr::new_host(Ipv6Addr::from_bits(random_start(index) | IPV6_BIT))
    }
}

/// So many random routes with a value each, in no order. Some come twice.
pub fn rows_like_routes<C: Route>(alloc: Global, size: usize) -> Result<Vec<(C, u32)>, AllocError> {
    let mut rows = Vec::with_capacity(alloc, size)?;
    for index in 0..size {
        rows.push((C::longer_route(index, 0), random_ipv4(index)))?;
    }
    Ok(rows)
}

/// So many addresses that are in no route, as networks, from an index on.
pub fn outside_routes<C: Route>(alloc: Global, from: usize, size: usize) -> Result<Vec<C>, AllocError> {
    let mut networks = Vec::with_capacity(alloc, size)?;
    for index in 0..size {
        networks.push(C::outside(from.wrapping_add(index)))?;
    }
    Ok(networks)
}

/// A random row of a table.
fn random_row<C: Route>(table: &LpmTable<C, u32>, index: usize) -> Option<&(C, u32)> {
    let place = (random(index) >> 32) as usize % table.len().max(1);
    if place < table.len() {
        table.row(place)
    } else {
        None
    }
}

/// An address in each of some rows.
pub fn asked_inside<C: Route>(alloc: Global, table: &LpmTable<C, u32>) -> Result<Vec<C>, AllocError> {
    let mut asked = Vec::new(alloc);
    for index in 0..ASKED {
        if let Some(row) = random_row(table, index ^ 0x0800_0000) {
            asked.push(row.0.inside(random(index ^ 0x0400_0000)))?;
        }
    }
    Ok(asked)
}

/// Keys of some rows.
pub fn some_keys<C: Route>(alloc: Global, table: &LpmTable<C, u32>) -> Result<Vec<C>, AllocError> {
    let mut keys = Vec::new(alloc);
    for index in 0..ASKED {
        if let Some(row) = random_row(table, index ^ 0x0100_0000) {
            keys.push(row.0)?;
        }
    }
    Ok(keys)
}
