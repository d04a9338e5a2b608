//! Which of two networks comes first, alone and in a sort.

use crate::bench::{Bench, Call2};
use crate::samples::{fixed_values, Order};
use crate::values::{partner, COUNT};
use cidr::{AnyIpCidr, Ipv4Cidr, Ipv6Cidr};
use cidr_support::alloc::AllocError;
use core::array::from_fn;

/// Whether one value comes before another, as a sort or a search asks it.
struct Cmp;

impl<T: Ord> Call2<T, T> for Cmp {
    fn number(&self, one: &T, other: &T) -> u32 {
        u32::from(one.cmp(other).is_lt())
    }
}

/// Sorts values from another order, and looks one of them up.
struct Sort;

impl<T: Ord + Copy> Call2<Order, [T; COUNT]> for Sort {
    fn number(&self, order: &Order, values: &[T; COUNT]) -> u32 {
        let mut sorted = *values;
        for (index, place) in sorted.iter_mut().enumerate() {
            *place = values[partner(order.0, index)];
        }
        sorted.sort_unstable();
        let found = sorted.binary_search(&values[partner(order.0, 0)]).unwrap_or(COUNT);
        found as u32 & 63
    }
}

/// Times a sort of each of 64 equal lists.
fn time_sort<T>(bench: &Bench<'_>, name: &str, lists: &[T]) -> Result<(), AllocError>
where
    Sort: Call2<Order, T>,
{
    bench.slower(16).pairs(name, Sort, &fixed_values::<Order>(), lists)
}

fn time_v4(bench: &Bench<'_>) -> Result<(), AllocError> {
    let values = fixed_values::<Ipv4Cidr>();
    let lists = [values; COUNT];
    bench.pairs("cmp IPv4", Cmp, &values, &values)?;
    time_sort(bench, "sort 64 IPv4", &lists)
}

fn time_v6(bench: &Bench<'_>) -> Result<(), AllocError> {
    let values = fixed_values::<Ipv6Cidr>();
    let lists = [values; COUNT];
    bench.pairs("cmp IPv6", Cmp, &values, &values)?;
    time_sort(bench, "sort 64 IPv6", &lists)
}

/// The same list at each index.
fn list_of_any(_index: usize) -> [AnyIpCidr; COUNT] {
    fixed_values()
}

fn time_any(bench: &Bench<'_>) -> Result<(), AllocError> {
    let values = fixed_values::<AnyIpCidr>();
    let lists: [[AnyIpCidr; COUNT]; COUNT] = from_fn(list_of_any);
    bench.pairs("cmp AnyIpCidr", Cmp, &values, &values)?;
    time_sort(bench, "sort 64 AnyIpCidr", &lists)
}

/// Times the order of two networks, and a sort.
pub fn time_all(bench: &Bench<'_>) -> Result<(), AllocError> {
    time_v4(bench)?;
    time_v6(bench)?;
    time_any(bench)
}
