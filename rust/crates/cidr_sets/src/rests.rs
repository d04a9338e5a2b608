//! Steps that leave the addresses of some networks out of another.

use crate::writing::Writable;
use cidr::{BitString, NetworkBits};
use cidr_table::is_inside;
use cidr_support::alloc::AllocError;

/// The networks without the first ones, which come before this one and don't contain it.
pub(crate) fn skip<'a, C: NetworkBits>(network: &C, others: &'a [C]) -> &'a [C] {
    let mut left = others;
    while let Some((first, behind)) = left.split_first() {
        if !is_passed(first, network) {
            break;
        }
        left = behind;
    }
    left
}

/// Whether a network comes before another and doesn't contain it.
#[inline]
pub(crate) fn is_passed<C: NetworkBits>(network: &C, next: &C) -> bool {
    network.cmp(next).is_lt() && !is_inside(next, network)
}

/// A half of a network that has another inside.
#[inline]
pub(crate) fn half<C: BitString + Copy>(network: &C, inner: &C, upper: bool) -> C {
    let mut half = *inner;
    half.clip(network.len());
    half.append(upper);
    half
}

/// The first network and those behind it, where it lies in another.
#[inline]
fn split_inside<'a, C: BitString>(outer: &C, networks: &'a [C]) -> Option<(&'a C, &'a [C])> {
    let (first, behind) = networks.split_first()?;
    if is_inside(first, outer) {
        Some((first, behind))
    } else {
        None
    }
}

/// Whether the first network contains another and is larger.
#[inline]
fn starts_around<C: BitString>(networks: &[C], network: &C) -> bool {
    match networks.split_first() {
        Some((first, _)) => first.len() < network.len() && is_inside(network, first),
        None => false,
    }
}

/// Writes the networks of the addresses that a set has and another has not, ascending.
#[inline]
pub(crate) fn write_rests<C: NetworkBits + Copy, O: Writable<C>>(
    out: &mut O,
    networks: &[C],
    others: &[C],
) -> Result<(), AllocError> {
    let mut todo = networks;
    let mut left = others;
    while let Some((network, behind)) = todo.split_first() {
        left = write_rest(out, network, left)?;
        todo = behind;
    }
    Ok(())
}

/// Writes the networks of the addresses of a network that a set has not, ascending.
#[inline]
pub(crate) fn write_complement<C: NetworkBits + Copy, O: Writable<C>>(
    out: &mut O,
    network: &C,
    networks: &[C],
) -> Result<(), AllocError> {
    write_rest(out, network, networks)?;
    Ok(())
}

/// Writes the networks of the addresses of a network that the others have not, ascending, and returns those of the
/// others that can have addresses behind the network.
#[inline]
pub(crate) fn write_rest<'a, C: NetworkBits + Copy, O: Writable<C>>(
    out: &mut O,
    network: &C,
    others: &'a [C],
) -> Result<&'a [C], AllocError> {
    let left = skip(network, others);
    if starts_around(left, network) {
        return Ok(left);
    }
    let rest = write_within(out, network, left)?;
    Ok(rest)
}

/// What `write_rest` does, where no other comes before the network or contains it, unless it is the same.
///
/// A network that contains none of the others is written itself. Any other is halved, as long as it isn't one of these.
fn write_within<'a, C: NetworkBits + Copy, O: Writable<C>>(
    out: &mut O,
    network: &C,
    others: &'a [C],
) -> Result<&'a [C], AllocError> {
    let Some((first, behind)) = split_inside(network, others) else {
        out.write(*network)?;
        return Ok(others);
    };
    if first.len() == network.len() {
        return Ok(behind);
    }
    let lower = half(network, first, false);
    let rest = write_within(out, &lower, others)?;
    let upper = half(network, first, true);
    let last = write_within(out, &upper, rest)?;
    Ok(last)
}
