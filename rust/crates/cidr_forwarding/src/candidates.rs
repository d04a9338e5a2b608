//! Lists of candidate values.

use cidr_support::vec::Vec;
use cidr_support::alloc::{AllocError, Global};

/// Whether one of the values is this one.
#[inline]
pub(crate) fn holds<V: Copy + Ord>(values: &[Option<V>], wanted: Option<V>) -> bool {
    values.contains(&wanted)
}

/// The first value, or `None` where there is none.
#[inline]
pub(crate) fn first_of<V: Copy>(values: &[Option<V>]) -> Option<V> {
    match values {
        [first, ..] => *first,
        [] => None,
    }
}

/// The values, ascending.
#[inline]
fn ascending<V: Copy + Ord>(
    alloc: Global,
    values: &[Option<V>],
) -> Result<Vec<Option<V>>, AllocError> {
    let mut sorted = Vec::with_capacity(alloc, values.len())?;
    for value in values {
        sorted.push(*value)?;
    }
    sorted.sort_unstable();
    Ok(sorted)
}

/// Whether one of the values, which ascend, is this one.
#[inline]
fn holds_ascending<V: Copy + Ord>(values: &[Option<V>], wanted: Option<V>) -> bool {
    values.binary_search(&wanted).is_ok()
}

/// Appends the values of one list that are in another: by a look at each pair where one list is short, or else by
/// searches in the other one, sorted.
fn push_shared<V: Copy + Ord>(
    alloc: Global,
    values: &[Option<V>],
    other: &[Option<V>],
    out: &mut Vec<Option<V>>,
) -> Result<(), AllocError> {
    if values.len() <= 16 || other.len() <= 16 {
        for value in values {
            if holds(other, *value) {
                out.push(*value)?;
            }
        }
    } else {
        let sorted = ascending(alloc, other)?;
        for wanted in values {
            if holds_ascending(&sorted, *wanted) {
                out.push(*wanted)?;
            }
        }
    }
    Ok(())
}

/// Appends one `None` for each in a list.
#[inline]
fn push_holes<V: Copy>(values: &[Option<V>], out: &mut Vec<Option<V>>) -> Result<(), AllocError> {
    for value in values {
        if value.is_none() {
            out.push(*value)?;
        }
    }
    Ok(())
}

/// The candidates of a network, of whose halves these are the candidates.
#[inline]
pub(crate) fn join<V: Copy + Ord>(
    alloc: Global,
    lower: &[Option<V>],
    upper: &[Option<V>],
    holes: bool,
    joined: &mut Vec<Option<V>>,
) -> Result<(), AllocError> {
    joined.clear();
    push_shared(alloc, lower, upper, joined)?;
    if !joined.is_empty() {
        return Ok(());
    }
    if !holes {
        push_holes(lower, joined)?;
        push_holes(upper, joined)?;
        if !joined.is_empty() {
            return Ok(());
        }
    }
    joined.extend_from_slice(lower)?;
    joined.extend_from_slice(upper)?;
    Ok(())
}
