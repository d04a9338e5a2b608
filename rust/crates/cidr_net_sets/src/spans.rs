//! Writing the networks of a range of addresses.

use crate::ranges::{Addressed, all_from};
use crate::rests::{half, is_passed};
use crate::writing::Writable;
use cidr::names::{BitString, NetworkBits};
use cidr_table::is_inside;
use cidr_support::alloc::AllocError;

/// Writes the networks of the addresses from a first to a last one, ascending.
#[inline]
pub(crate) fn write_range<C: Addressed + Copy, O: Writable<C>>(
    out: &mut O,
    first: C::Address,
    last: C::Address,
) -> Result<(), AllocError> {
    let (first, last) = (C::single(first), C::single(last));
    write_between(out, &C::null(), &first, &last)?;
    Ok(())
}

/// Writes the networks of the addresses of a network from a first to a last one, ascending.
///
/// A network that has none of them is left out, and one that has only such is written itself. Any other is halved.
fn write_between<C: NetworkBits + Copy, O: Writable<C>>(
    out: &mut O,
    network: &C,
    first: &C,
    last: &C,
) -> Result<(), AllocError> {
    if is_passed(network, first) || is_passed(last, network) {
        return Ok(());
    }
    let Some(edge) = cutting(network, first, last) else {
        out.write(*network)?;
        return Ok(());
    };
    let lower = half(network, edge, false);
    write_between(out, &lower, first, last)?;
    let upper = half(network, edge, true);
    write_between(out, &upper, first, last)?;
    Ok(())
}

/// Of a first and a last address the one that lies in a network of which not all addresses are on its right side.
#[inline]
fn cutting<'a, C: BitString>(network: &C, first: &'a C, last: &'a C) -> Option<&'a C> {
    if is_cut(network, first, false) {
        return Some(first);
    }
    if is_cut(network, last, true) {
        return Some(last);
    }
    None
}

/// Whether an edge lies in a network, and has other bits than `bit` behind the network's.
#[inline]
fn is_cut<C: BitString>(network: &C, edge: &C, bit: bool) -> bool {
    is_inside(edge, network) && !all_from(edge, network.len(), bit)
}
