//! What a prefix list permits, as rows.

use cidr_support::vec::Vec;
use crate::lists::{Row, full_length, is_changed, permitted_of_length};
use cidr::FamilyCidr;
use cidr_sets::NetworkSet;
use cidr_sets::access::Action;
use cidr_support::alloc::{AllocError, Global};

/// What a prefix list permits, as rows that all permit, so that their order plays no part: they ascend by their least prefix
/// length, and those of one by their networks.
///
/// A network that is permitted at lengths that follow one another is one row, from the first of them to the last. Where the
/// networks of a length are permitted that rows so far don't have, the longest networks around these are taken, whole. So it
/// is a short list, but not always the shortest: rows may overlap, and a row may have a network only so that it begins later.
///
/// For each prefix length at which a row begins or ends it makes the set of what is permitted, as `access::permitted` does:
/// O(n log n) for n rows each time. Where an allocation fails, it returns the error.
///
/// ```
/// # use cidr::Ipv4Cidr;
/// # use cidr_routes::{lists::*, *};
/// # use cidr_sets::access::Action;
/// # use cidr_support::{alloc::Global, vec::Vec};
/// let rows = [(Action::Deny, "10.2.0.0/16", 16, 32), (Action::Permit, "10.0.0.0/8", 16, 24), (Action::Deny, "10.3.0.0/16", 20, 24)];
/// let rows = rows.map(|(action, n, low, high)| Row { action, network: n.parse::<Ipv4Cidr>().unwrap(), low, high });
/// assert_eq!(permitted(Global, &rows[1..])?.len(), 1);
/// # Ok::<(), Box<dyn std::error::Error>>(())
/// ```
///
/// # Errors
///
/// `AllocError` where memory runs out.
#[inline]
pub fn permitted<C: FamilyCidr>(alloc: Global, rows: &[Row<C>]) -> Result<Vec<Row<C>>, AllocError> {
    let full = full_length::<C>();
    let mut out = Vec::new(alloc);
    for len in 0..full + 1 {
        out = rows_upto(alloc, rows, out, len)?;
    }
    Ok(out)
}

/// The rows of permitted networks so far, where the shorter lengths are done, and what is permitted of one length more.
#[inline]
fn rows_upto<C: FamilyCidr>(
    alloc: Global,
    rows: &[Row<C>],
    before: Vec<Row<C>>,
    len: u8,
) -> Result<Vec<Row<C>>, AllocError> {
    if !is_changed(rows, len) {
        return Ok(before);
    }
    let set = permitted_of_length(alloc, rows, len)?;
    next_rows(alloc, before.as_slice(), &set, len)
}

/// The same, by the set of what is permitted of the length.
#[inline]
fn next_rows<C: FamilyCidr>(
    alloc: Global,
    before: &[Row<C>],
    set: &NetworkSet<C>,
    len: u8,
) -> Result<Vec<Row<C>>, AllocError> {
    let mut out = continued_rows(alloc, before, set, len)?;
    let cover = open_networks(alloc, out.as_slice())?;
    begin_rows(&mut out, &cover, set.as_slice(), len)?;
    Ok(out)
}

/// The rows so far, of which those end before this length that have a network of it that isn't permitted.
#[inline]
fn continued_rows<C: FamilyCidr>(
    alloc: Global,
    before: &[Row<C>],
    set: &NetworkSet<C>,
    len: u8,
) -> Result<Vec<Row<C>>, AllocError> {
    let mut out = Vec::with_capacity(alloc, before.len())?;
    for row in before {
        out.push(continued(row, set, len))?;
    }
    Ok(out)
}

/// The addresses of the rows that have not ended.
#[inline]
fn open_networks<C: FamilyCidr>(alloc: Global, rows: &[Row<C>]) -> Result<NetworkSet<C>, AllocError> {
    let mut networks = Vec::new(alloc);
    for row in rows {
        if is_open(row) {
            networks.push(row.network)?;
        }
    }
    Ok(NetworkSet::from_vec(networks))
}

/// Whether a row has not ended.
#[inline]
fn is_open<C: FamilyCidr>(row: &Row<C>) -> bool {
    row.high == full_length::<C>()
}

/// Adds a row for each network that isn't covered, from this length on.
fn begin_rows<C: FamilyCidr>(
    out: &mut Vec<Row<C>>,
    cover: &NetworkSet<C>,
    networks: &[C],
    len: u8,
) -> Result<(), AllocError> {
    let full = full_length::<C>();
    for network in networks {
        if !cover.contains(network) {
            out.push(Row {
                action: Action::Permit,
                network: *network,
                low: len,
                high: full,
            })?;
        }
    }
    Ok(())
}

/// A row so far, which ends before this length where a network of it isn't permitted.
fn continued<C: FamilyCidr>(row: &Row<C>, set: &NetworkSet<C>, len: u8) -> Row<C> {
    if !is_open(row) || set.contains(&row.network) {
        return *row;
    }
    Row {
        action: row.action,
        network: row.network,
        low: row.low,
        high: len - 1,
    }
}
