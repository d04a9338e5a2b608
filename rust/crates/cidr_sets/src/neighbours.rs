//! The networks of a set that lie in one, and those beside it that make up a whole with it.

use crate::lookup::upto;
use cidr::{BitString, NetworkBits};
use cidr_table::is_inside;

/// Whether there is a network at an index, and it lies in another.
#[inline]
fn is_inside_at<C: BitString>(networks: &[C], at: usize, outer: &C) -> bool {
    at < networks.len() && is_inside(&networks[at], outer)
}

/// Where the networks stand that lie in one, which none of them contains: from the first index to before the second.
///
/// One binary search, and a look at each network that lies in it.
#[inline]
pub(crate) fn inside_of<C: NetworkBits>(networks: &[C], outer: &C) -> (usize, usize) {
    let start = upto(networks, outer);
    let mut end = start;
    while is_inside_at(networks, end, outer) {
        end += 1;
    }
    (start, end)
}

/// Whether a network is one of the two halves of another.
#[inline]
fn is_half<C: BitString>(network: &C, parent: &C) -> bool {
    is_inside(network, parent) && network.len() == parent.len() + 1
}

/// Whether there is a network at an index, and it is a half of another.
#[inline]
fn is_half_at<C: BitString>(networks: &[C], at: usize, parent: &C) -> bool {
    at < networks.len() && is_half(&networks[at], parent)
}

/// Whether there is a network before an index, and it is a half of another.
#[inline]
fn is_half_before<C: BitString>(networks: &[C], start: usize, parent: &C) -> bool {
    start > 0 && is_half(&networks[start - 1], parent)
}

/// Of a network that stands in place of those from `start` to before `end`: both indices with the other half of its
/// parent, if that is the network before them or behind them.
fn other_half<C: BitString + Copy>(
    networks: &[C],
    start: usize,
    end: usize,
    network: &C,
) -> Option<(usize, usize)> {
    let len = network.len();
    if len == 0 {
        return None;
    }
    let mut parent = *network;
    parent.clip(len - 1);
    if is_half_before(networks, start, &parent) {
        return Some((start - 1, end));
    }
    if is_half_at(networks, end, &parent) {
        return Some((start, end + 1));
    }
    None
}

/// The network that takes the place of those from the first index to before the second, where the addresses of one are
/// added that none contains: with the other half of it, as far up as both halves are there.
pub(crate) fn joined_with<C: NetworkBits + Copy>(networks: &[C], network: &C) -> (C, usize, usize) {
    let (mut start, mut end) = inside_of(networks, network);
    let mut whole = *network;
    while let Some((from, to)) = other_half(networks, start, end, &whole) {
        let len = whole.len();
        whole.clip(len - 1);
        start = from;
        end = to;
    }
    (whole, start, end)
}
