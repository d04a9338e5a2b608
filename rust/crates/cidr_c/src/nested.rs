//! Networks in order with their indexes, and what is around each: one pass finds it, and a look-up goes from a network to what is
//! around it.

use cidr_support::vec::Vec;
use crate::codes::NO_MEMORY;
use crate::lookups::indexed_rows;
use crate::values::CValue;
use cidr::{AnyIpCidr, BitString, NetworkBits};
use cidr_table::is_inside;
use cidr_support::alloc::{AllocError, Global};

/// Networks of a list in order, those that repeat by index, each with its index, and how many of these rows there are up to the
/// smallest network around that of each, 0 where there is none.
pub struct Nested {
    rows: Vec<(AnyIpCidr, usize)>,
    outers: Vec<usize>,
}

/// The networks that values are, in order, or the number of the error.
#[inline]
pub fn nested_rows(alloc: Global, values: &[CValue]) -> Result<Nested, u32> {
    let listed = indexed_rows(alloc, values)?;
    let rows = sorted(listed);
    match outers_of(alloc, rows.as_slice()) {
        Ok(outers) => Ok(Nested { rows, outers }),
        Err(_) => Err(NO_MEMORY),
    }
}

/// Rows in the order of their networks, and those of one network by index.
#[inline]
pub fn sorted<C: NetworkBits>(mut rows: Vec<(C, usize)>) -> Vec<(C, usize)> {
    rows.sort_unstable();
    rows
}

/// Whether a network is inside another one, and not the same.
#[inline]
fn is_smaller_inside<C: BitString>(network: &C, outer: &C) -> bool {
    outer.len() < network.len() && is_inside(network, outer)
}

/// How many rows there are up to the smallest network around that of a row, by those of the rows before it: it may be inside the
/// one before it, or else inside what that is inside.
fn outer_of<C: NetworkBits>(rows: &[(C, usize)], outers: &[usize], inner: usize) -> usize {
    let mut end = inner;
    while end > 0 {
        if is_smaller_inside(&rows[inner].0, &rows[end - 1].0) {
            return end;
        }
        end = outers[end - 1];
    }
    end
}

/// The same of each row.
#[inline]
fn outers_of<C: NetworkBits>(alloc: Global, rows: &[(C, usize)]) -> Result<Vec<usize>, AllocError> {
    let mut outers = Vec::with_capacity(alloc, rows.len())?;
    for inner in 0..rows.len() {
        let outer = outer_of(rows, outers.as_slice(), inner);
        outers.push(outer)?;
    }
    Ok(outers)
}

/// The index of the last of the first `end` rows, or `usize::MAX` where these are none.
#[inline]
fn index_before(rows: &[(AnyIpCidr, usize)], end: usize) -> usize {
    if end == 0 {
        usize::MAX
    } else {
        rows[end - 1].1
    }
}

/// Puts the index of the smallest network around each at the index of its own row.
#[inline]
fn put_nearest(rows: &[(AnyIpCidr, usize)], outers: &[usize], out: &mut [usize]) {
    for inner in 0..rows.len() {
        out[rows[inner].1] = index_before(rows, outers[inner]);
    }
}

/// Whether a network comes behind another one.
#[inline]
fn is_behind<C: NetworkBits>(network: &C, other: &C) -> bool {
    network.cmp(other).is_gt()
}

/// How many of the rows come up to a network in their order.
fn rows_upto<C: NetworkBits>(rows: &[(C, usize)], asked: &C) -> usize {
    // Whatever a comparison returns, `left / 2` rows are left, so that the compiler can do without a branch on it.
    let mut found = 0;
    let mut left = rows.len();
    while left > 0 {
        let half = left - left / 2;
        if !is_behind(&rows[found + half - 1].0, asked) {
            found += half;
        }
        left /= 2;
    }
    found
}

/// The index of the longest network that contains the asked one, or `usize::MAX` where none does: a search by halving, and then from
/// a network to the one around it.
fn longest_of(rows: &[(AnyIpCidr, usize)], outers: &[usize], asked: &AnyIpCidr) -> usize {
    let mut end = rows_upto(rows, asked);
    while end > 0 {
        if is_inside(asked, &rows[end - 1].0) {
            return rows[end - 1].1;
        }
        end = outers[end - 1];
    }
    usize::MAX
}

/// The index of the longest network that contains the asked one, or `usize::MAX` where none does.
#[inline]
pub fn longest_in(nested: &Nested, asked: &AnyIpCidr) -> usize {
    longest_of(nested.rows.as_slice(), nested.outers.as_slice(), asked)
}

/// Puts the index of the smallest network around each at its own index, and leaves what is behind the networks.
#[inline]
pub fn put_nearest_in(nested: &Nested, out: &mut [usize]) {
    put_nearest(nested.rows.as_slice(), nested.outers.as_slice(), out);
}
