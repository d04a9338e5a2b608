//! Changes of many rows or networks: single ones are put into a table or a set, and taken out again.

use crate::bench::{named, Bench};
use crate::routes::{outside_routes, Route};
use crate::values::mixed;
use cidr::NetworkBits;
use cidr_sets::NetworkSet;
use cidr_support::alloc::{AllocError, Global};
use cidr_table::LpmTable;
use std::time::Instant;

/// How many networks are put in and taken out.
const CHANGED: usize = 64;

/// How often both have their turn. The least times count.
const TURNS: u32 = 5;

/// What networks are put into and taken out of.
pub trait Changed<C>: Sized {
    /// Puts a network in. Returns 1 where it is there then.
    fn put(&mut self, network: &C) -> u32;

    /// Takes a network out. Returns 1 where it was there.
    fn take(&mut self, network: &C) -> u32;
}

impl<C: NetworkBits + Copy> Changed<C> for LpmTable<C, u32> {
    fn put(&mut self, network: &C) -> u32 {
        match self.insert(*network, 1) {
            Ok(_) => 1,
            Err(_) => 0,
        }
    }

    fn take(&mut self, network: &C) -> u32 {
        self.remove(network).unwrap_or(0)
    }
}

impl<C: NetworkBits + Copy> Changed<C> for NetworkSet<C> {
    fn put(&mut self, network: &C) -> u32 {
        u32::from(self.insert(*network).is_ok())
    }

    fn take(&mut self, network: &C) -> u32 {
        u32::from(self.remove(network).is_ok())
    }
}

/// The least nanoseconds of a turn, and a number that hangs on its results.
#[derive(Clone, Copy)]
struct Time {
    least: u128,
    sum: u32,
}

impl Time {
    fn new() -> Time {
        Time {
            least: u128::MAX,
            sum: 0,
        }
    }

    /// One more turn.
    fn with(self, nanoseconds: u128, sum: u32) -> Time {
        Time {
            least: self.least.min(nanoseconds),
            sum,
        }
    }
}

/// Puts each network in.
#[inline(never)]
fn put_each<C, T: Changed<C>>(changed: &mut T, networks: &[C]) -> u32 {
    let mut sum = 0;
    for network in networks {
        sum = mixed(sum, changed.put(network));
    }
    sum
}

/// Takes each network out.
#[inline(never)]
fn take_each<C, T: Changed<C>>(changed: &mut T, networks: &[C]) -> u32 {
    let mut sum = 0;
    for network in networks {
        sum = mixed(sum, changed.take(network));
    }
    sum
}

/// Puts networks in and takes them out, once.
fn turn<C, T: Changed<C>>(changed: &mut T, networks: &[C], times: [Time; 2]) -> Result<[Time; 2], AllocError> {
    let start = Instant::now();
    let put = put_each(changed, networks);
    let put_time = start.elapsed().as_nanos();
    let start = Instant::now();
    let taken = take_each(changed, networks);
    let take_time = start.elapsed().as_nanos();
    Ok([times[0].with(put_time, put), times[1].with(take_time, taken)])
}

/// Times single networks that are put in and taken out: addresses that are in no route, from an index on. The first name
/// is that of the row of those that are put in.
pub fn time_changes<C: Route, T: Changed<C>>(
    bench: &Bench<'_>,
    names: [&str; 2],
    changed: &mut T,
    from: usize,
) -> Result<(), AllocError> {
    let (put, take) = (named(names[0], bench.of), named(names[1], bench.of));
    if !bench.wants(put.as_str()) && !bench.wants(take.as_str()) {
        return Ok(());
    }
    let networks = outside_routes::<C>(Global, from, CHANGED)?;
    let mut times = [Time::new(); 2];
    for _ in 0..TURNS {
        times = turn(changed, networks.as_slice(), times)?;
    }
    bench.print(put.as_str(), times[0].least, CHANGED as u128, times[0].sum)?;
    bench.print(take.as_str(), times[1].least, CHANGED as u128, times[1].sum)
}
