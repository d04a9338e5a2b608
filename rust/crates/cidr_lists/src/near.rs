//! What stands near the network of a line: the first line that has it, and those of the longest network around it and
//! of its other half.
//!
//! One pass over the networks of a family in their order finds it. Of those passed, the ones that a network behind may
//! still be inside are open: a chain, in which each network is inside those before it. A network closes those at the
//! end of the chain that do not contain it. Then the last open one is the longest around it, and its other half, if
//! that stands before it, is the last one that it closed.

use cidr_support::vec::Vec;
use crate::entries::{Entry, entry_at};
use cidr::{IpCidr, Ipv4Cidr, Ipv6Cidr, NetworkBits};
use cidr_ext::NetworkExt;
use cidr_sets::is_inside;
use cidr_support::alloc::{AllocError, Global};

/// What stands near the network of a line. A line is told by its index, from 0 on, among those that have a network or a
/// host.
#[derive(Clone, Copy, Debug)]
pub struct Near {
    /// The first line that has the network. The two fields below are set at that line's index alone, where `near_at`
    /// reads them.
    pub first: usize,
    /// The first line of the longest network around it.
    pub outer: Option<usize>,
    /// The first line of its other half.
    pub half: Option<usize>,
}

/// The networks of lines of each family, each with the index of its line.
struct Numbered {
    v4: Vec<(Ipv4Cidr, usize)>,
    v6: Vec<(Ipv6Cidr, usize)>,
}

/// The networks of lines, in the order of the lines.
fn number_networks(alloc: Global, entries: &[Entry<'_>]) -> Result<Numbered, AllocError> {
    let mut v4 = Vec::new(alloc);
    let mut v6 = Vec::new(alloc);
    for index in 0..entries.len() {
        match entry_at(entries, index).host.network() {
            IpCidr::V4(network) => v4.push((network, index))?,
            IpCidr::V6(network) => v6.push((network, index))?,
        }
    }
    Ok(Numbered { v4, v6 })
}

/// The rows by network, and those of one network by index.
#[inline]
fn sorted<C: NetworkBits>(mut rows: Vec<(C, usize)>) -> Vec<(C, usize)> {
    rows.sort_unstable();
    rows
}

/// Each line by itself, with nothing near.
fn nothing_near(alloc: Global, count: usize) -> Result<Vec<Near>, AllocError> {
    let mut near = Vec::with_capacity(alloc, count)?;
    for index in 0..count {
        near.push(Near {
            first: index,
            outer: None,
            half: None,
        })?;
    }
    Ok(near)
}

/// Whether two networks are the same.
#[inline]
fn is_same<C: NetworkBits>(one: &C, other: &C) -> bool {
    one.cmp(other).is_eq()
}

/// The row at an index.
#[inline]
fn row_at<C: Copy>(rows: &[(C, usize)], index: usize) -> (C, usize) {
    rows[index]
}

/// The last row.
#[inline]
fn last_of<C: Copy>(rows: &[(C, usize)]) -> Option<(C, usize)> {
    let len = rows.len();
    if len == 0 {
        return None;
    }
    Some(row_at(rows, len - 1))
}

/// Closes the networks at the end of the chain that do not contain the network, and gives the last one closed.
fn close<C: NetworkBits + Copy>(nest: &mut Vec<(C, usize)>, network: &C) -> Option<(C, usize)> {
    let mut closed = None;
    while let Some(row) = last_of(nest.as_slice()) {
        if is_inside(network, &row.0) {
            return closed;
        }
        nest.pop();
        closed = Some(row);
    }
    closed
}

/// The index of a row, if it is of this network.
fn same_of<C: NetworkBits + Copy>(found: Option<(C, usize)>, network: &C) -> Option<usize> {
    match found {
        Some(row) => {
            if is_same(&row.0, network) {
                Some(row.1)
            } else {
                None
            }
        }
        None => None,
    }
}

/// The index of the row that was closed last, if it is of the other half.
fn half_of<C: NetworkExt>(closed: Option<(C, usize)>, network: &C) -> Option<usize> {
    match closed {
        Some(row) => {
            if network.is_sibling_of(&row.0) {
                Some(row.1)
            } else {
                None
            }
        }
        None => None,
    }
}

/// The index of a row, if there is one.
#[inline]
fn index_of<C: Copy>(found: Option<(C, usize)>) -> Option<usize> {
    let row = found?;
    Some(row.1)
}

/// What is kept at an index.
#[inline]
fn kept(near: &[Near], index: usize) -> Near {
    near[index]
}

/// Keeps what stands near a network at an index.
#[inline]
fn put(near: &mut [Near], index: usize, one: Near) {
    near[index] = one;
}

/// Keeps the first index of a network at another one.
#[inline]
fn put_first(near: &mut [Near], index: usize, first: usize) {
    let Near { outer, half, .. } = kept(near, index);
    put(near, index, Near { first, outer, half });
}

/// Keeps the other half of an earlier network, if there is one.
fn put_half(near: &mut [Near], earlier: Option<usize>, half: usize) {
    match earlier {
        Some(index) => {
            let Near { first, outer, .. } = kept(near, index);
            let half = Some(half);
            put(near, index, Near { first, outer, half });
        }
        None => {}
    }
}

/// Passes the network of a row: keeps what stands near it, and opens it unless it is open.
fn pass<C: NetworkExt>(
    near: &mut [Near],
    nest: &mut Vec<(C, usize)>,
    rows: &[(C, usize)],
    index: usize,
) -> Result<(), AllocError> {
    let row = row_at(rows, index);
    let closed = close(nest, &row.0);
    let outer = last_of(nest.as_slice());
    if let Some(first) = same_of(outer, &row.0) {
        put_first(near, row.1, first);
        return Ok(());
    }
    nest.push(row)?;
    let half = half_of(closed, &row.0);
    let one = Near {
        first: row.1,
        outer: index_of(outer),
        half,
    };
    put(near, row.1, one);
    put_half(near, half, row.1);
    Ok(())
}

/// Keeps what stands near the network of each row.
#[inline]
fn keep<C: NetworkExt>(
    alloc: Global,
    near: &mut [Near],
    rows: &[(C, usize)],
) -> Result<(), AllocError> {
    let mut nest = Vec::new(alloc);
    for index in 0..rows.len() {
        pass(near, &mut nest, rows, index)?;
    }
    Ok(())
}

/// What stands near the networks of lines, for `near_at`. A host is taken by its network.
///
/// It sorts the networks of n lines, O(n log n), and passes them once. It allocates 16 bytes for each line of IPv4 and
/// 32 for each of IPv6, which it frees, and some 40 a line, which stay. The error is that there is no memory.
pub fn near_lines(alloc: Global, entries: &[Entry<'_>]) -> Result<Vec<Near>, AllocError> {
    let rows = number_networks(alloc, entries)?;
    let Numbered { v4, v6 } = rows;
    let v4 = sorted(v4);
    let v6 = sorted(v6);
    let mut near = nothing_near(alloc, entries.len())?;
    keep(alloc, &mut near, v4.as_slice())?;
    keep(alloc, &mut near, v6.as_slice())?;
    Ok(near)
}

/// What stands near the network of the line at an index, which is kept for the first line of the network: two reads. The
/// caller has to ensure that `near` is what `near_lines` gave of these lines, and that the index is below their number.
#[inline]
pub fn near_at(near: &[Near], entries: &[Entry<'_>], index: usize) -> Near {
    assert!(index < entries.len());
    let first = kept(near, index).first;
    kept(near, first)
}
