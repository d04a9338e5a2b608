//! The rows of a prefix list that decide nothing.

use cidr_support::vec;
use cidr_support::vec::Vec;
use crate::lists::{Row, full_length, has_length, is_changed, rules_of_length};
use cidr::FamilyCidr;
use cidr_sets::access;
use cidr_support::alloc::{AllocError, Global};

/// The indices of the rows of a prefix list that decide nothing, counted from 0 and ascending: each network that such a row
/// is about is one that an earlier row is about. What the rows do plays no part.
///
/// For each prefix length at which a row begins or ends it looks which rows no network of that length reaches, as
/// `access::shadowed` does: O(n log n) for n rows each time. Where an allocation fails, it returns the error.
///
/// ```
/// # use cidr::Ipv4Cidr;
/// # use cidr_routes::{lists::*, *};
/// # use cidr_sets::access::Action;
/// # use cidr_support::{alloc::Global, vec::Vec};
/// let rows = [(Action::Deny, "10.2.0.0/16", 16, 32), (Action::Permit, "10.0.0.0/8", 16, 24), (Action::Deny, "10.3.0.0/16", 20, 24)];
/// let rows = rows.map(|(action, n, low, high)| Row { action, network: n.parse::<Ipv4Cidr>().unwrap(), low, high });
/// assert_eq!(format!("{:?}", shadowed(Global, &rows)?), "[2]");
/// # Ok::<(), Box<dyn std::error::Error>>(())
/// ```
///
/// # Errors
///
/// `AllocError` where memory runs out.
#[inline]
pub fn shadowed<C: FamilyCidr>(alloc: Global, rows: &[Row<C>]) -> Result<Vec<usize>, AllocError> {
    let mut marks = vec![in alloc; false; rows.len()]?;
    undecided(alloc, rows, &mut marks)
}

/// The indices of the rows that decide nothing, ascending, by marks of which none is set.
#[inline]
fn undecided<C: FamilyCidr>(
    alloc: Global,
    rows: &[Row<C>],
    marks: &mut [bool],
) -> Result<Vec<usize>, AllocError> {
    mark_all(alloc, rows, marks)?;
    unmarked(alloc, marks)
}

/// Marks the rows that decide some network, where none is marked.
#[inline]
fn mark_all<C: FamilyCidr>(
    alloc: Global,
    rows: &[Row<C>],
    marks: &mut [bool],
) -> Result<(), AllocError> {
    let full = full_length::<C>();
    for len in 0..full + 1 {
        mark_length(alloc, rows, len, marks)?;
    }
    Ok(())
}

/// The same of one length, where the shorter ones are done.
#[inline]
fn mark_length<C: FamilyCidr>(
    alloc: Global,
    rows: &[Row<C>],
    len: u8,
    marks: &mut [bool],
) -> Result<(), AllocError> {
    if !is_changed(rows, len) {
        return Ok(());
    }
    mark_deciding(alloc, rows, len, marks)
}

/// Marks the rows that decide a network of one length.
fn mark_deciding<C: FamilyCidr>(
    alloc: Global,
    rows: &[Row<C>],
    len: u8,
    marks: &mut [bool],
) -> Result<(), AllocError> {
    let passed = passed_rules(alloc, rows, len)?;
    let mut rule = 0;
    for (i, row) in rows.iter().enumerate() {
        let has = has_length(row, len);
        marks[i] = mark_of(mark_at(marks, i), has, passed.as_slice(), rule);
        rule += count_of(has);
    }
    Ok(())
}

/// The indices of the rules of the rows about networks of one length that no address reaches, ascending.
#[inline]
fn passed_rules<C: FamilyCidr>(
    alloc: Global,
    rows: &[Row<C>],
    len: u8,
) -> Result<Vec<usize>, AllocError> {
    let rules = rules_of_length(alloc, rows, len)?;
    let passed = access::shadowed(alloc, rules.as_slice())?;
    Ok(passed)
}

/// The mark at an index.
#[inline]
fn mark_at(marks: &[bool], i: usize) -> bool {
    marks[i]
}

/// The mark of a row that had one or not: it gets one where it is about the length and some address reaches its rule.
#[inline]
fn mark_of(mark: bool, has: bool, passed: &[usize], rule: usize) -> bool {
    if mark {
        return true;
    }
    if !has {
        return false;
    }
    !is_listed(passed, rule)
}

/// How many rules a row has that is about a length or isn't.
#[inline]
fn count_of(has: bool) -> usize {
    if has { 1 } else { 0 }
}

/// Whether a number is one of those that ascend.
#[inline]
fn is_listed(numbers: &[usize], number: usize) -> bool {
    numbers.binary_search(&number).is_ok()
}

/// The indices without a mark, ascending.
#[inline]
fn unmarked(alloc: Global, marks: &[bool]) -> Result<Vec<usize>, AllocError> {
    let mut out = Vec::new(alloc);
    for (i, is_marked) in marks.iter().enumerate() {
        if !*is_marked {
            out.push(i)?;
        }
    }
    Ok(out)
}
