//! Look-ups in tables made ready, and how long they take.

use cidr_support::vec::Vec;
use crate::failure::Failure;
use cidr::{AnyIpCidr, Ipv4Cidr, Ipv6Cidr, NetworkBits};
use cidr_lookup::{Address, Key, Keyed, LookupTable, ReadyTable, find};
use cidr_table::{LpmTable, longest_match};
use cidr_support::alloc::{AllocError, Global};
use std::time::Instant;

/// How often each way is run, one time behind the other, so that the caches hold what they can of it. The least time of
/// each counts.
const TURNS: u32 = 5;

/// A type of networks whose rows are looked up.
pub trait LookedUp: Sized + NetworkBits + Copy {
    /// Writes the value of each look-up key, one a line, or `none`.
    fn write_found(rows: &[(Self, u32)], asked: &[Self]) -> Result<(), Failure>;

    /// Writes what the table takes that is made ready, and how long look-ups take.
    fn write_speed(rows: &[(Self, u32)], asked: &[Self]) -> Result<(), Failure>;
}

impl LookedUp for Ipv4Cidr {
    fn write_found(
        rows: &[(Ipv4Cidr, u32)],
        asked: &[Ipv4Cidr],
    ) -> Result<(), Failure> {
        write_ready(table_of(Global, rows)?, asked)
    }

    fn write_speed(
        rows: &[(Ipv4Cidr, u32)],
        asked: &[Ipv4Cidr],
    ) -> Result<(), Failure> {
        write_sizes(table_of(Global, rows)?, asked)
    }
}

impl LookedUp for Ipv6Cidr {
    fn write_found(
        rows: &[(Ipv6Cidr, u32)],
        asked: &[Ipv6Cidr],
    ) -> Result<(), Failure> {
        write_ready(table_of(Global, rows)?, asked)
    }

    fn write_speed(
        rows: &[(Ipv6Cidr, u32)],
        asked: &[Ipv6Cidr],
    ) -> Result<(), Failure> {
        write_sizes(table_of(Global, rows)?, asked)
    }
}

/// A table of both families is looked up in its rows.
impl LookedUp for AnyIpCidr {
    fn write_found(
        rows: &[(AnyIpCidr, u32)],
        asked: &[AnyIpCidr],
    ) -> Result<(), Failure> {
        let table = table_of(Global, rows)?;
        for key in asked {
            write_value(table.lookup(key))?;
        }
        Ok(())
    }

    fn write_speed(
        _rows: &[(AnyIpCidr, u32)],
        _asked: &[AnyIpCidr],
    ) -> Result<(), Failure> {
        Ok(())
    }
}

/// The table of rows that ascend.
fn table_of<C: NetworkBits + Copy>(
    alloc: Global,
    rows: &[(C, u32)],
) -> Result<LpmTable<C, u32>, AllocError> {
    let mut copied = Vec::with_capacity(alloc, rows.len())?;
    for row in rows {
        copied.push(*row)?;
    }
    Ok(LpmTable::from_rows(copied))
}

/// Writes the value of a row, or `none`.
fn write_value<C>(row: Option<&(C, u32)>) -> Result<(), Failure> {
    match row {
        Some((_, value)) => println!("{value}"),
        None => println!("none"),
    }
    Ok(())
}

/// Writes the value of each look-up key in the table made ready, which is to be that of the row with the index that is
/// found in the rows.
fn write_ready<C: Keyed>(
    table: LpmTable<C, u32>,
    asked: &[C],
) -> Result<(), Failure> {
    let ready = ReadyTable::new(Global, table).map_err(|refused| refused.1)?;
    for key in asked {
        if ready.find(key) != longest_match(&mut ready.table().probe(), key) {
            return Err(Failure::Differs);
        }
        write_value(ready.lookup(key))?;
    }
    Ok(())
}

/// Writes the bytes of the look-up table, the nanoseconds until it is made, and those of all look-ups.
fn write_sizes<C: Keyed>(
    table: LpmTable<C, u32>,
    asked: &[C],
) -> Result<(), Failure> {
    let start = Instant::now();
    let ready = ReadyTable::new(Global, table).map_err(|refused| refused.1)?;
    let made = start.elapsed().as_nanos();
    println!("{}\t{made}", bytes(ready.words()));
    write_times(&ready, asked)
}

/// How many bytes the words of a look-up table are.
fn bytes(words: &LookupTable) -> usize {
    let count = words.first.len().saturating_add(words.words.len());
    count.saturating_mul(4)
}

/// Writes the times of all look-ups, each with a number that hangs on all results: in the rows, by `find` of the look-up
/// table, of addresses that are numbers, and by `find` of the table made ready.
fn write_times<C: Keyed>(
    ready: &ReadyTable<C, u32>,
    asked: &[C],
) -> Result<(), Failure> {
    let rows = ready.table();
    let numbers = numbers_of(Global, asked)?;
    let (mut rows_time, mut time, mut ready_time) = (u128::MAX, u128::MAX, u128::MAX);
    let (mut rows_sum, mut sum, mut ready_sum) = (0, 0, 0);
    for _ in 0..TURNS {
        let start = Instant::now();
        rows_sum = sum_by_rows(rows, asked);
        rows_time = rows_time.min(start.elapsed().as_nanos());
    }
    for _ in 0..TURNS {
        let start = Instant::now();
        sum = sum_of_indices(ready.words(), numbers.as_slice());
        time = time.min(start.elapsed().as_nanos());
    }
    for _ in 0..TURNS {
        let start = Instant::now();
        ready_sum = sum_by_ready(ready, asked);
        ready_time = ready_time.min(start.elapsed().as_nanos());
    }
    println!("{rows_time}\t{rows_sum}\t{time}\t{sum}\t{ready_time}\t{ready_sum}");
    Ok(())
}

/// The numbers of the first addresses of networks.
fn numbers_of<C: Keyed>(alloc: Global, asked: &[C]) -> Result<Vec<C::Number>, AllocError> {
    let mut numbers = Vec::with_capacity(alloc, asked.len())?;
    for network in asked {
        numbers.push(Key::of(network).address)?;
    }
    Ok(numbers)
}

/// A number that hangs on all values that look-ups in the rows give.
#[inline(never)]
fn sum_by_rows<C: NetworkBits + Copy>(rows: &LpmTable<C, u32>, asked: &[C]) -> u32 {
    let mut sum = 0;
    for key in asked {
        sum = mixed(sum, rows.lookup(key).map(|row| row.1));
    }
    sum
}

/// A number that hangs on all indices that look-ups of numbers give.
#[inline(never)]
fn sum_of_indices<A: Address>(table: &LookupTable, asked: &[A]) -> u32 {
    let (first, words) = (table.first.as_slice(), table.words.as_slice());
    let mut sum = 0;
    for address in asked {
        sum = mixed(sum, index(find(&first, &words, table.steps, *address)));
    }
    sum
}

/// A number that hangs on all indices that the table made ready gives.
#[inline(never)]
fn sum_by_ready<C: Keyed>(ready: &ReadyTable<C, u32>, asked: &[C]) -> u32 {
    let mut sum = 0;
    for key in asked {
        sum = mixed(sum, index(ready.find(key)));
    }
    sum
}

/// An index as a value, of which there are fewer than 2^31.
#[inline(always)]
fn index(place: Option<usize>) -> Option<u32> {
    Some((place? % (1 << 31)) as u32)
}

/// One number out of a number and a value, so that no look-up can be left out.
#[inline(always)]
fn mixed(sum: u32, value: Option<u32>) -> u32 {
    sum.wrapping_mul(5) ^ value.unwrap_or(u32::MAX)
}
