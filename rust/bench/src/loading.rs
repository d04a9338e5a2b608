//! Tables of many rows in no order: from prefix bytes, and from rows.

use crate::bench::{Bench, Work};
use crate::values::{mixed, random, random_ipv4};
use cidr::{Ipv4Addr, Ipv4Cidr, Ipv4Inet, NetworkBits, PrefixBytes};
use cidr_support::alloc::{AllocError, Global};
use cidr_support::vec::Vec;
use cidr_table::LpmTable;

/// How many prefixes the list has, about as many as the routing table of the whole Internet.
const PREFIXES: usize = 900_000;

/// A network of 8 to 24 bits, by its index in a fixed sequence of numbers.
fn network(index: usize) -> Ipv4Cidr {
    let address = Ipv4Addr::from_bits(random_ipv4(index));
    let len = (8 + random(index ^ 0x2000_0000) % 17) as u8;
    Ipv4Inet::new(address, len)
        .unwrap_or(Ipv4Inet::new_host(address))
        .network()
}

/// So many of these networks.
fn networks(alloc: Global, size: usize) -> Result<Vec<Ipv4Cidr>, AllocError> {
    let mut networks = Vec::with_capacity(alloc, size)?;
    for index in 0..size {
        networks.push(network(index))?;
    }
    Ok(networks)
}

/// The prefixes of networks.
fn prefixes(alloc: Global, networks: &[Ipv4Cidr]) -> Result<Vec<u8>, AllocError> {
    let mut bytes = Vec::new(alloc);
    for network in networks {
        bytes.extend_from_slice(network.to_prefix_bytes().as_slice())?;
    }
    Ok(bytes)
}

/// A row of each network, with its place as far as that fits.
pub fn rows<C: Copy>(alloc: Global, networks: &[C]) -> Result<Vec<(C, u32)>, AllocError> {
    let mut rows = Vec::with_capacity(alloc, networks.len())?;
    for (place, network) in networks.iter().enumerate() {
        rows.push((*network, (place % 4_294_967_296) as u32))?;
    }
    Ok(rows)
}

/// Loads a table from the bytes.
struct Load<'a>(Global, &'a [u8]);

impl Work for Load<'_> {
    #[inline(never)]
    fn round(&mut self, _round: u32, sum: u32) -> u32 {
        let rows = match LpmTable::<Ipv4Cidr, usize>::load(self.0, self.1) {
            Ok(table) => table.len(),
            Err(_) => 0,
        };
        mixed(sum, (rows % 4_294_967_296) as u32)
    }
}

/// Makes a table of a copy of rows.
struct FromRows<'a, C>(Global, &'a [(C, u32)]);

impl<C: NetworkBits + Copy> Work for FromRows<'_, C> {
    #[inline(never)]
    fn round(&mut self, _round: u32, sum: u32) -> u32 {
        let rows = match Vec::from_slice(self.0, self.1) {
            Ok(rows) => LpmTable::from_rows(rows).len(),
            Err(_) => 0,
        };
        mixed(sum, (rows % 4_294_967_296) as u32)
    }
}

/// Times loading a list of networks.
pub fn time_load(bench: &Bench<'_>, name: &str, networks: &[Ipv4Cidr]) -> Result<(), AllocError> {
    let bytes = prefixes(Global, networks)?;
    bench.time(name, networks.len(), Load(Global, bytes.as_slice()))
}

/// Times making a table of rows of networks.
pub fn time_rows<C: NetworkBits + Copy>(bench: &Bench<'_>, name: &str, networks: &[C]) -> Result<(), AllocError> {
    let rows = rows(Global, networks)?;
    bench.time(name, networks.len(), FromRows(Global, rows.as_slice()))
}

/// Times tables of lists in no order.
pub fn time_all(bench: &Bench<'_>) -> Result<(), AllocError> {
    let (load, rows) = ("load a table", "load a table from rows");
    // where the first one is asked for, the second one is too
    if bench.quiet || !bench.wants(rows) {
        return Ok(());
    }
    let networks = networks(Global, PREFIXES)?;
    time_load(bench, load, networks.as_slice())?;
    time_rows(bench, rows, networks.as_slice())
}
