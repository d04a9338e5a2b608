//! Steps through two lists of networks at once.

use crate::writing::Writable;
use cidr::names::NetworkBits;
use cidr_table::is_inside;
use core::cmp::Ordering;

/// The first network of two lists, and what is left of them; `None` where both are empty.
pub(crate) fn next_of<'a, C: NetworkBits + Copy>(
    left: &'a [C],
    right: &'a [C],
) -> Option<(&'a C, &'a [C], &'a [C])> {
    match left.split_first() {
        Some((first, behind)) => match right.split_first() {
            Some((second, rest)) => match first.cmp(second) {
                Ordering::Less => Some((first, behind, right)),
                Ordering::Equal => Some((first, behind, rest)),
                Ordering::Greater => Some((second, left, rest)),
            },
            None => Some((first, behind, right)),
        },
        None => match right.split_first() {
            Some((second, rest)) => Some((second, left, rest)),
            None => None,
        },
    }
}

/// Of the first networks of two lists, the one that lies in the other, if one does, and what is left of the lists
/// without it, or else without the first of both; `None` where one list is empty.
pub(crate) fn next_shared<'a, C: NetworkBits + Copy>(
    left: &'a [C],
    right: &'a [C],
) -> Option<(Option<C>, &'a [C], &'a [C])> {
    let (first, behind) = left.split_first()?;
    let (second, rest) = right.split_first()?;
    if is_inside(first, second) {
        return Some((Some(*first), behind, right));
    }
    if is_inside(second, first) {
        return Some((Some(*second), left, rest));
    }
    match first.cmp(second) {
        Ordering::Less => Some((None, behind, right)),
        _ => Some((None, left, rest)),
    }
}

/// Writes the networks of both lists, ascending, and each once, where there is room for all.
#[inline]
pub(crate) fn write_merged<C: NetworkBits + Copy, O: Writable<C>>(
    out: &mut O,
    these: &[C],
    those: &[C],
) {
    let mut left = these;
    let mut right = those;
    while let Some((network, behind, rest)) = next_of(left, right) {
        out.put(*network);
        left = behind;
        right = rest;
    }
}

/// Writes the networks of the addresses that both of two sets have, ascending, where there is room for all.
pub(crate) fn write_shared<C: NetworkBits + Copy, O: Writable<C>>(
    out: &mut O,
    these: &[C],
    those: &[C],
) {
    let mut left = these;
    let mut right = those;
    while let Some((shared, behind, rest)) = next_shared(left, right) {
        if let Some(network) = shared {
            out.put(network);
        }
        left = behind;
        right = rest;
    }
}
