//! Tables like those of routers: longest matches, single rows, and rows in a network.

use crate::bench::{named, Bench, Call, Work};
use crate::routes::{asked_inside, outside_routes, rows_like_routes, some_keys, Route, ASKED};
use crate::values::mixed;
use cidr::{Ipv4Cidr, Ipv6Cidr, NetworkBits};
use cidr_lookup::{Keyed, ReadyTable};
use cidr_support::alloc::{AllocError, Global};
use cidr_support::vec::Vec;
use cidr_table::{longest_match, LpmTable};

/// A value as a number, or another number where there is none.
fn value_number(value: Option<u32>) -> u32 {
    value.unwrap_or(u32::MAX)
}

/// A row's value as a number.
fn row_number<C>(row: Option<&(C, u32)>) -> u32 {
    match row {
        Some(row) => row.1,
        None => u32::MAX,
    }
}

/// The longest match in a table.
struct Match<'a, C: NetworkBits + Copy>(&'a LpmTable<C, u32>);

impl<C: NetworkBits + Copy> Call<C> for Match<'_, C> {
    fn number(&self, asked: &C) -> u32 {
        match longest_match(&mut self.0.probe(), asked) {
            Some(place) => row_number(self.0.row(place)),
            None => u32::MAX,
        }
    }
}

/// The longest match as a row.
struct Lookup<'a, C: NetworkBits + Copy>(&'a LpmTable<C, u32>);

impl<C: NetworkBits + Copy> Call<C> for Lookup<'_, C> {
    fn number(&self, asked: &C) -> u32 {
        row_number(self.0.lookup(asked))
    }
}

/// The longest match as a row, of a table made ready.
struct ReadyLookup<C: Keyed>(ReadyTable<C, u32>);

impl<C: Keyed> Call<C> for ReadyLookup<C> {
    fn number(&self, asked: &C) -> u32 {
        row_number(self.0.lookup(asked))
    }
}

/// All matches: the sum of their values.
struct Matches<'a, C: NetworkBits + Copy>(&'a LpmTable<C, u32>);

impl<C: NetworkBits + Copy> Call<C> for Matches<'_, C> {
    fn number(&self, asked: &C) -> u32 {
        let mut sum = 0;
        for row in self.0.matches(asked) {
            sum = mixed(sum, row.1);
        }
        sum
    }
}

/// The value of a key.
struct Get<'a, C: NetworkBits + Copy>(&'a LpmTable<C, u32>);

impl<C: NetworkBits + Copy> Call<C> for Get<'_, C> {
    fn number(&self, key: &C) -> u32 {
        value_number(self.0.get(key).copied())
    }
}

/// The rows in a network: their number and the first of them.
struct Inside<'a, C: NetworkBits + Copy>(&'a LpmTable<C, u32>);

impl<C: NetworkBits + Copy> Call<C> for Inside<'_, C> {
    fn number(&self, outer: &C) -> u32 {
        let rows = self.0.inside(outer);
        mixed((rows.len() % 65536) as u32, row_number(rows.first()))
    }
}

/// Inserts each row and removes it.
struct Change<'a, C: NetworkBits + Copy> {
    table: &'a mut LpmTable<C, u32>,
    keys: &'a [C],
}

impl<C: NetworkBits + Copy> Work for Change<'_, C> {
    #[inline(never)]
    fn round(&mut self, round: u32, sum: u32) -> u32 {
        let mut sum = sum;
        for key in self.keys {
            if let Ok(before) = self.table.insert(*key, round) {
                sum = mixed(sum, value_number(before));
            }
            sum = mixed(sum, value_number(self.table.remove(key)));
        }
        sum
    }
}

/// A table, and what is asked of it.
struct Tables<C: NetworkBits + Copy> {
    table: LpmTable<C, u32>,
    inside: Vec<C>,
    outside: Vec<C>,
    keys: Vec<C>,
}

impl<C: Route + Keyed> Tables<C> {
    fn new(alloc: Global, size: usize) -> Result<Tables<C>, AllocError> {
        let table = LpmTable::from_rows(rows_like_routes::<C>(alloc, size)?);
        let inside = asked_inside(alloc, &table)?;
        let outside = outside_routes(alloc, 0x0200_0000, ASKED)?;
        let keys = some_keys(alloc, &table)?;
        Ok(Tables {
            table,
            inside,
            outside,
            keys,
        })
    }

    /// Times longest matches of addresses in each way.
    fn time_matches(&self, bench: &Bench<'_>, name: &str, asked: &[C]) -> Result<(), AllocError> {
        bench.each(name, Match(&self.table), asked)?;
        let of = named(bench.of, "by lookup");
        bench.of(of.as_str()).each(name, Lookup(&self.table), asked)?;
        let of = named(bench.of, "made ready");
        let Ok(ready) = ReadyTable::new(Global, self.table.clone()) else {
            return Err(AllocError.into());
        };
        bench.of(of.as_str()).each(name, ReadyLookup(ready), asked)
    }

    /// Times single rows and rows in a network.
    fn time_rows(&self, bench: &Bench<'_>) -> Result<(), AllocError> {
        let (keys, inside) = (self.keys.as_slice(), self.inside.as_slice());
        bench.each("get", Get(&self.table), keys)?;
        bench.each("all matches", Matches(&self.table), inside)?;
        bench.each("inside", Inside(&self.table), keys)
    }

    /// Times inserts and removals.
    fn time_changes(&mut self, bench: &Bench<'_>) -> Result<(), AllocError> {
        let keys = self.outside.as_slice().get(..64).unwrap_or(&[]);
        let table = &mut self.table;
        bench.time("insert and remove", keys.len(), Change { table, keys })
    }

    /// Times all calls.
    fn time_all(&mut self, bench: &Bench<'_>) -> Result<(), AllocError> {
        self.time_matches(bench, "match", self.inside.as_slice())?;
        self.time_matches(bench, "no match", self.outside.as_slice())?;
        self.time_rows(bench)?;
        self.time_changes(bench)
    }
}

/// Times a table of so many rows.
fn time<C: Route + Keyed>(bench: &Bench<'_>, size: usize) -> Result<(), AllocError> {
    let mut tables = Tables::<C>::new(Global, size)?;
    tables.time_all(bench)
}

/// Times tables of both families, with the ends of the names of their rows.
fn time_size(bench: &Bench<'_>, of: [&str; 2], size: usize) -> Result<(), AllocError> {
    time::<Ipv4Cidr>(&bench.of(of[0]), size)?;
    time::<Ipv6Cidr>(&bench.of(of[1]), size)
}

/// Times tables of three sizes.
pub fn time_all(bench: &Bench<'_>) -> Result<(), AllocError> {
    time_size(bench, ["IPv4 in 1,000", "IPv6 in 1,000"], 1_000)?;
    if bench.quiet {
        return Ok(());
    }
    time_size(bench, ["IPv4 in 100,000", "IPv6 in 100,000"], 100_000)?;
    time_size(bench, ["IPv4 in 900,000", "IPv6 in 900,000"], 900_000)
}
