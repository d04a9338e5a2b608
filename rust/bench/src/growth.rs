//! How calls grow: tables and sets of as many rows or networks as are asked for, in no order. Each network is one address.

use crate::bench::Bench;
use crate::changing::time_changes;
use crate::loading::{rows, time_load, time_rows};
use crate::routes::{outside_routes, Route};
use crate::sets::{sort_lists, OfNetworks, OfSets, Operation};
use cidr::{FamilyCidr, Ipv4Cidr, Ipv6Cidr};
use cidr_sets::NetworkSet;
use cidr_support::alloc::{AllocError, Global};
use cidr_table::LpmTable;

/// The set of these.
fn set<C: Route>(alloc: Global, from: usize, size: usize) -> Result<NetworkSet<C>, AllocError> {
    Ok(NetworkSet::from_vec(outside_routes(alloc, from, size)?))
}

/// Times loading a table from prefix bytes.
fn time_loaded(bench: &Bench<'_>, size: usize) -> Result<(), AllocError> {
    let networks = outside_routes::<Ipv4Cidr>(Global, 0, size)?;
    time_load(bench, "load", networks.as_slice())
}

/// Times single rows that are put into a table of networks and taken out.
fn time_table<C: Route>(bench: &Bench<'_>, networks: &[C]) -> Result<(), AllocError> {
    let mut table = LpmTable::from_rows(rows(Global, networks)?);
    let from = networks.len();
    time_changes(bench, ["table insert", "table remove"], &mut table, from)
}

/// Times single networks that are put into a set and taken out.
fn time_set<C: Route>(bench: &Bench<'_>, size: usize) -> Result<(), AllocError> {
    let mut set = set::<C>(Global, 0, size)?;
    time_changes(bench, ["set insert", "set remove"], &mut set, size)
}

/// Times the set of networks, in no order and as lists that ascend.
fn time_made<C: FamilyCidr>(bench: &Bench<'_>, networks: &mut [C]) -> Result<(), AllocError> {
    let alloc = Global;
    bench.time("from_networks", networks.len(), OfNetworks(alloc, networks))?;
    sort_lists(networks);
    bench.time("from_networks of 16 lists", networks.len(), OfNetworks(alloc, networks))
}

/// Times tables of networks, and the set of them.
fn time_networks<C: Route + FamilyCidr>(bench: &Bench<'_>, size: usize) -> Result<(), AllocError> {
    let mut networks = outside_routes::<C>(Global, 0, size)?;
    time_rows(bench, "from_rows", networks.as_slice())?;
    time_table(bench, networks.as_slice())?;
    time_made(bench, networks.as_mut_slice())
}

/// Times the union of two sets that have so many networks together.
fn time_union<C: Route + FamilyCidr>(bench: &Bench<'_>, size: usize) -> Result<(), AllocError> {
    let half = size / 2;
    let these = set::<C>(Global, 0, half)?;
    let those = set::<C>(Global, half, half)?;
    bench.time("union", size, OfSets(Operation::Union, &these, &those))
}

/// Times calls on so many rows or networks of one family.
fn time<C: Route + FamilyCidr>(bench: &Bench<'_>, size: usize) -> Result<(), AllocError> {
    time_networks::<C>(bench, size)?;
    time_union::<C>(bench, size)?;
    time_set::<C>(bench, size)
}

/// Times calls on so many rows or networks, each in one round.
pub fn time_all(bench: &Bench<'_>, size: usize) -> Result<(), AllocError> {
    time_loaded(&bench.of("IPv4"), size)?;
    time::<Ipv4Cidr>(&bench.of("IPv4"), size)?;
    time::<Ipv6Cidr>(&bench.of("IPv6"), size)
}
