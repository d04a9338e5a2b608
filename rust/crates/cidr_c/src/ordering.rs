//! Networks in order, by their indexes, and the network that stands nearest around each.

use cidr_support::vec::Vec;
use crate::codes::{NO_MEMORY, NO_ROOM, OK};
use crate::finding::put_list;
use crate::lookups::{indexed_rows, table_of};
use crate::nested::{nested_rows, put_nearest_in, sorted};
use crate::values::CValue;
use cidr::{AnyIpCidr, NetworkBits};
use cidr_table::LpmTable;
use cidr_support::alloc::{AllocError, Global};

/// All rows of a table: those inside the network of no bits.
#[inline]
fn all_of<'a, C: NetworkBits + Copy>(table: &'a LpmTable<C, usize>, any: &C) -> &'a [(C, usize)] {
    table.inside(any)
}

/// The indexes of rows.
#[inline]
fn indexes_of(alloc: Global, rows: &[(AnyIpCidr, usize)]) -> Result<Vec<usize>, AllocError> {
    let mut indexes = Vec::with_capacity(alloc, rows.len())?;
    for i in 0..rows.len() {
        indexes.push(rows[i].1)?;
    }
    Ok(indexes)
}

/// Puts the indexes of rows into a room.
#[inline]
fn put_indexes(
    alloc: Global,
    rows: &[(AnyIpCidr, usize)],
    out: &mut [usize],
    count: &mut usize,
) -> u32 {
    match indexes_of(alloc, rows) {
        Ok(indexes) => put_list(indexes.as_slice(), out, count),
        Err(_) => NO_MEMORY,
    }
}

/// The indexes of the networks of a list in ascending order, and of equal ones in that of the list: the first `count` of
/// `out`; where there is too little room, `count` becomes how many they are.
#[inline]
pub fn pcidr_sort_order(
    alloc: Global,
    networks: &[CValue],
    out: &mut [usize],
    count: &mut usize,
) -> u32 {
    match indexed_rows(alloc, networks) {
        Ok(rows) => put_indexes(alloc, sorted(rows).as_slice(), out, count),
        Err(code) => code,
    }
}

/// The same of each network once, where it repeats of the last one: the rows of a table of the list.
#[inline]
pub fn pcidr_table_order(
    alloc: Global,
    networks: &[CValue],
    out: &mut [usize],
    count: &mut usize,
) -> u32 {
    match table_of(alloc, networks) {
        Ok(table) => put_indexes(alloc, all_of(&table, &AnyIpCidr::Any), out, count),
        Err(code) => code,
    }
}

/// For each network of a list the index of the smallest other one that contains it, or `usize::MAX` where none does; of
/// one that repeats the last index counts. Errors as of `pcidr_contains_each`.
///
/// It allocates, puts the networks in order, O(n log n), and goes over them once.
pub fn pcidr_nearest_each(alloc: Global, networks: &[CValue], out: &mut [usize]) -> u32 {
    let nested = match nested_rows(alloc, networks) {
        Ok(nested) => nested,
        Err(code) => return code,
    };
    if out.len() < networks.len() {
        return NO_ROOM;
    }
    put_nearest_in(&nested, out);
    OK
}
