//! The least cover of a table of some 100,000 IPv4 networks that look like those of a routing table.

use crate::bench::{called, Bench, Call, Work};
use crate::numbers::Number;
use crate::values::{random, random_ipv4_len};
use cidr::{Ipv4Addr, Ipv4Cidr, Ipv4Inet};
use cidr_support::alloc::{AllocError, Global};
use cidr_support::vec;
use cidr_support::vec::Vec;
use cidr_table::LpmTable;

/// How many networks are put into the table. Some come twice, so that some 100,000 are there.
const INSERTED: u32 = 110_000;

/// The number of a network.
struct OfNetwork;

impl Call<Ipv4Cidr> for OfNetwork {
    fn number(&self, network: &Ipv4Cidr) -> u32 {
        network.number()
    }
}

/// The number of a row.
struct OfRow;

impl Call<(Ipv4Cidr, u32)> for OfRow {
    fn number(&self, row: &(Ipv4Cidr, u32)) -> u32 {
        row.0.number() ^ row.1
    }
}

/// Makes the least cover of a table in room for it.
struct Cover<'a> {
    table: &'a LpmTable<Ipv4Cidr, u32>,
    room: Vec<Ipv4Cidr>,
}

impl Work for Cover<'_> {
    fn round(&mut self, _round: u32, sum: u32) -> u32 {
        if self.table.len() > self.room.len() {
            return sum;
        }
        let count = self.table.least_cover(self.room.as_mut_slice());
        let cover = self.room.as_slice().get(..count).unwrap_or(&[]);
        called(sum, &OfNetwork, cover)
    }
}

/// Networks in ascending order, each fourth of them in the one before it.
fn routes(alloc: Global) -> Result<Vec<(Ipv4Cidr, u32)>, AllocError> {
    let mut rows = Vec::new(alloc);
    let mut first = 0x0100_0000u32;
    for value in 0..INSERTED {
        let len = random_ipv4_len(value as usize);
        let size = u32::MAX >> len.min(31);
        let start = first.wrapping_add(size) & !size;
        let address = Ipv4Addr::from_bits(start);
        let host = Ipv4Inet::new(address, len).unwrap_or(Ipv4Inet::new_host(address));
        rows.push((host.network(), value))?;
        first = start;
        if random(value as usize) % 4 != 0 {
            first = start.wrapping_add(size).wrapping_add(1);
        }
    }
    Ok(rows)
}

/// The network of one address.
fn lone() -> Ipv4Cidr {
    Ipv4Cidr::new_host(Ipv4Addr::from_bits(0))
}

/// Times the least cover of a table.
fn time_cover(bench: &Bench<'_>, table: &LpmTable<Ipv4Cidr, u32>) -> Result<(), AllocError> {
    let room = vec![in Global; lone(); table.len()]?;
    bench.time("least_cover IPv4, a row", table.len(), Cover { table, room })
}

/// Times the least cover, and beside it one look at each row.
pub fn time_all(bench: &Bench<'_>) -> Result<(), AllocError> {
    if bench.quiet || !bench.wants("least_cover IPv4") {
        return Ok(());
    }
    let table = LpmTable::from_rows(routes(Global)?);
    time_cover(bench, &table)?;
    let all = Ipv4Cidr::new(Ipv4Addr::from_bits(0), 0).unwrap_or(lone());
    let rows = table.inside(&all);
    bench.each("least_cover IPv4, one look at each row", OfRow, rows)
}
