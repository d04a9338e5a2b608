//! Sets of addresses: union, intersection and difference of two, sets of lists, changes, and which addresses a set
//! contains.
//!
//! The last address of each result is used, and of the first round the number of its addresses.

use crate::bench::{Bench, Call, Work};
use crate::changing::time_changes;
use crate::numbers::folded;
use crate::routes::{Route, ASKED};
use crate::values::{mixed, random};
use cidr::{FamilyCidr, Ipv4Cidr, Ipv6Cidr, NetworkBits};
use cidr_lookup::{Keyed, ReadySet};
use cidr_sets::NetworkSet;
use cidr_support::alloc::{AllocError, Global};
use cidr_support::vec::Vec;

/// What is done with two sets.
#[derive(Clone, Copy)]
pub enum Operation {
    Union,
    Intersection,
    Difference,
}

const OPERATIONS: [(Operation, &str); 3] = [
    (Operation::Union, "set union"),
    (Operation::Intersection, "set intersection"),
    (Operation::Difference, "set difference"),
];

/// Makes a set of two others.
pub struct OfSets<'a, C: FamilyCidr>(pub Operation, pub &'a NetworkSet<C>, pub &'a NetworkSet<C>);

/// The last address of a set, and where it is asked for, the number of its addresses.
fn set_number<C: FamilyCidr>(set: &NetworkSet<C>, is_counted: bool) -> u32 {
    let last = match set.as_slice().last() {
        Some(network) => network.ends().1,
        None => 0,
    };
    if is_counted {
        folded(last ^ set.address_count().unwrap_or(0))
    } else {
        folded(last)
    }
}

/// The number of a set that was made, or nothing new where it was not.
fn with_set<C: FamilyCidr>(made: Result<NetworkSet<C>, AllocError>, round: u32, sum: u32) -> u32 {
    match made {
        Ok(set) => mixed(sum, set_number(&set, round == 0)),
        Err(_) => sum,
    }
}

impl<C: FamilyCidr> Work for OfSets<'_, C> {
    #[inline(never)]
    fn round(&mut self, round: u32, sum: u32) -> u32 {
        let result = match self.0 {
            Operation::Union => self.1.union(self.2),
            Operation::Intersection => self.1.intersection(self.2),
            Operation::Difference => self.1.difference(self.2),
        };
        with_set(result, round, sum)
    }
}

/// Makes the set of networks.
pub struct OfNetworks<'a, C>(pub Global, pub &'a [C]);

impl<C: FamilyCidr> Work for OfNetworks<'_, C> {
    #[inline(never)]
    fn round(&mut self, round: u32, sum: u32) -> u32 {
        with_set(NetworkSet::from_networks(self.0, self.1), round, sum)
    }
}

/// Makes the union of sets, by one after the other.
struct InTurn<'a, C: NetworkBits + Copy>(Global, &'a [NetworkSet<C>]);

impl<C: FamilyCidr> InTurn<'_, C> {
    fn union(&self) -> Result<NetworkSet<C>, AllocError> {
        let mut all = NetworkSet::new(self.0);
        for set in self.1 {
            all = all.union(set)?;
        }
        Ok(all)
    }
}

impl<C: FamilyCidr> Work for InTurn<'_, C> {
    #[inline(never)]
    fn round(&mut self, round: u32, sum: u32) -> u32 {
        with_set(self.union(), round, sum)
    }
}

/// Whether a set has an address.
struct Contains<'a, C: NetworkBits + Copy>(&'a NetworkSet<C>);

impl<C: NetworkBits + Copy> Call<C> for Contains<'_, C> {
    fn number(&self, asked: &C) -> u32 {
        u32::from(self.0.contains(asked))
    }
}

/// Whether a set made ready has an address.
struct ReadyContains<C: Keyed>(ReadySet<C>);

impl<C: Keyed> Call<C> for ReadyContains<C> {
    fn number(&self, asked: &C) -> u32 {
        u32::from(self.0.contains(asked))
    }
}

/// The place in the networks alone, by a binary search.
struct Place<'a, C>(&'a [C]);

impl<C: Ord> Call<C> for Place<'_, C> {
    fn number(&self, asked: &C) -> u32 {
        let (Ok(place) | Err(place)) = self.0.binary_search(asked);
        (place % 4_294_967_296) as u32
    }
}

/// So many random networks, from an index on.
fn networks_like_routes<C: Route>(alloc: Global, from: usize, size: usize, more: u8) -> Result<Vec<C>, AllocError> {
    let mut networks = Vec::with_capacity(alloc, size)?;
    for index in 0..size {
        networks.push(C::longer_route(from.wrapping_add(index), more))?;
    }
    Ok(networks)
}

/// The set of such networks.
fn set_like_routes<C: Route>(alloc: Global, from: usize, size: usize, more: u8) -> Result<NetworkSet<C>, AllocError> {
    Ok(NetworkSet::from_vec(networks_like_routes(alloc, from, size, more)?))
}

/// How many lists stand one behind the other.
const LISTS: usize = 16;

/// How many of so many networks a list has.
pub fn list_len(networks: usize) -> usize {
    (networks / LISTS).max(1)
}

/// Puts each of the lists in order, which stand one behind the other.
pub fn sort_lists<C: Ord>(networks: &mut [C]) {
    let len = list_len(networks.len());
    for list in networks.chunks_mut(len) {
        list.sort_unstable();
    }
}

/// The set of each of the lists.
fn sets_of_lists<C: NetworkBits + Copy>(alloc: Global, networks: &[C]) -> Result<Vec<NetworkSet<C>>, AllocError> {
    let mut sets = Vec::new(alloc);
    for list in networks.chunks(list_len(networks.len())) {
        sets.push(NetworkSet::from_networks(alloc, list)?)?;
    }
    Ok(sets)
}

/// Addresses of which about half are in some of the networks, and the others anywhere.
fn asked<C: Route>(alloc: Global, networks: &[C], more: u8) -> Result<Vec<C>, AllocError> {
    let mut asked = Vec::new(alloc);
    for index in 0..ASKED {
        let chosen = random(index ^ 0x0800_0000);
        let network = match networks.get((chosen >> 32) as usize % networks.len().max(1)) {
            Some(network) if chosen % 2 == 0 => *network,
            _ => C::longer_route(index ^ 0x0200_0000, more),
        };
        asked.push(network.inside(random(index ^ 0x0400_0000)))?;
    }
    Ok(asked)
}

/// Times operations on two sets.
fn time_operations<C: FamilyCidr>(
    bench: &Bench<'_>,
    these: &NetworkSet<C>,
    those: &NetworkSet<C>,
) -> Result<(), AllocError> {
    let networks = these.len().saturating_add(those.len());
    for (operation, name) in OPERATIONS {
        bench.time(name, networks, OfSets(operation, these, those))?;
    }
    Ok(())
}

/// Times whether a set made ready has addresses, where there is memory for it.
fn time_ready<C: Keyed>(bench: &Bench<'_>, set: &NetworkSet<C>, asked: &[C]) -> Result<(), AllocError> {
    match ReadySet::new(Global, set.as_slice()) {
        Ok(ready) => bench.each("set contains, made ready", ReadyContains(ready), asked),
        Err(_) => Ok(()),
    }
}

/// Times questions of a set.
fn time_questions<C: FamilyCidr + Keyed>(
    bench: &Bench<'_>,
    set: &NetworkSet<C>,
    asked: &[C],
) -> Result<(), AllocError> {
    bench.each("set contains", Contains(set), asked)?;
    time_ready(bench, set, asked)?;
    bench.each("set binary search", Place(set.as_slice()), asked)
}

/// Times the set of lists that ascend, one behind the other, at once and by unions in turn.
fn time_lists<C: FamilyCidr>(bench: &Bench<'_>, networks: &[C]) -> Result<(), AllocError> {
    let alloc = Global;
    bench.time("set of 16 lists", networks.len(), OfNetworks(alloc, networks))?;
    let sets = sets_of_lists(alloc, networks)?;
    let in_turn = InTurn(alloc, sets.as_slice());
    bench.time("set of 16 lists, by unions", networks.len(), in_turn)
}

/// Times the set of networks in no order, and of lists.
fn time_makes<C: FamilyCidr>(bench: &Bench<'_>, networks: &mut [C]) -> Result<(), AllocError> {
    let alloc = Global;
    bench.time("set of a list", networks.len(), OfNetworks(alloc, networks))?;
    sort_lists(networks);
    time_lists(bench, networks)
}

/// Times a set of ten parts by one of one part, half of whose networks are the last ones of the other. The networks
/// have so many bits more than those of routing tables, so that fewer of them overlap.
fn time_two<C: Route + FamilyCidr + Keyed>(bench: &Bench<'_>, part: usize, more: u8) -> Result<(), AllocError> {
    let alloc = Global;
    let most = part.saturating_mul(9);
    let mut these = set_like_routes::<C>(alloc, 0, most, more)?;
    let those = set_like_routes::<C>(alloc, most.saturating_sub(part / 2), part, more)?;
    time_operations(bench, &these, &those)?;
    let asked = asked(alloc, these.as_slice(), more)?;
    time_questions(bench, &these, asked.as_slice())?;
    time_changes(bench, ["set insert", "set remove"], &mut these, 0x0200_0000)
}

/// Times two sets, and how sets are made of lists, in a tenth of the rounds.
fn time<C: Route + FamilyCidr + Keyed>(bench: &Bench<'_>, part: usize, more: u8) -> Result<(), AllocError> {
    time_two::<C>(bench, part, more)?;
    let size = part.saturating_mul(9);
    let mut networks = networks_like_routes::<C>(Global, 0, size, more)?;
    time_makes(&bench.slower(10), networks.as_mut_slice())
}

/// Times sets of both families, with the ends of the names of their rows.
fn time_size(bench: &Bench<'_>, of: [&str; 2], part: usize, more: u8) -> Result<(), AllocError> {
    time::<Ipv4Cidr>(&bench.of(of[0]), part, more)?;
    time::<Ipv6Cidr>(&bench.of(of[1]), part, more)
}

/// Times sets of routes as they are and of longer networks.
pub fn time_all(bench: &Bench<'_>) -> Result<(), AllocError> {
    time_size(bench, ["IPv4, small", "IPv6, small"], 100, 0)?;
    if bench.quiet {
        return Ok(());
    }
    time_size(bench, ["IPv4, routes", "IPv6, routes"], 100_000, 0)?;
    time_size(bench, ["IPv4", "IPv6"], 100_000, 8)
}
