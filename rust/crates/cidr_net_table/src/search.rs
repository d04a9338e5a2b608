//! The searches by halving: for a key, and for how many bits of the look-up key a key begins with; and whether a network is
//! inside another.

use crate::probe::Probe;
use cidr::names::{BitString, NetworkBits};

/// Where the key stands among the first `end` keys, or the index before which it would.
///
/// # Errors
///
/// `usize`, which tells what is wrong.
pub fn search<C: Ord, P: Probe<C>>(rows: &mut P, key: &C, end: usize) -> Result<usize, usize> {
    // Whatever a comparison returns, `half` indices are left, so that the compiler can do without a branch on it.
    let mut low = 0;
    let mut left = end;
    let mut found = false;
    while left > 0 {
        let half = left / 2;
        let order = rows.compare(low + half, key);
        if order.is_lt() {
            low += left - half;
        } else {
            found = order.is_eq();
        }
        left = half;
    }
    if found { Ok(low) } else { Err(low) }
}

/// What `search` returns, where the keys before index `start` are known to come before the key.
///
/// # Errors
///
/// `usize`, which tells what is wrong.
pub fn search_between<C: Ord, P: Probe<C>>(
    rows: &mut P,
    key: &C,
    start: usize,
    end: usize,
) -> Result<usize, usize> {
    let mut low = start;
    let mut left = end - start;
    while left > 0 {
        let rest = left / 2;
        let order = rows.compare(low + rest, key);
        if order.is_lt() {
            low += left - rest;
        } else if order.is_eq() {
            return Ok(low + rest);
        }
        left = rest;
    }
    Err(low)
}

/// The same as `search`, for a key that likely stands near the end: first it goes back from there, `step` keys and then
/// each time twice as far, but at most `tries` times.
///
/// # Errors
///
/// `usize`, which tells what is wrong.
pub fn search_back<C: Ord, P: Probe<C>>(
    rows: &mut P,
    key: &C,
    end: usize,
    step: usize,
    tries: usize,
) -> Result<usize, usize> {
    let mut high = end;
    let mut far = step.max(1);
    let mut left = tries;
    while high > 0 && left > 0 {
        let near = high.saturating_sub(far);
        let order = rows.compare(near, key);
        if order.is_lt() {
            return search_between(rows, key, near + 1, high);
        } else if order.is_eq() {
            return Ok(near);
        } else {
            high = near;
        }
        far = far.saturating_mul(2);
        left -= 1;
    }
    search(rows, key, high)
}

/// How many of the look-up key's first `most` bits the key at an index begins with: `Ok` where it has no others, and
/// else `Err` of at least as many, where the key comes before all longer beginnings.
///
/// # Errors
///
/// `usize`, which tells what is wrong.
pub fn shared_len<C: NetworkBits + Copy, P: Probe<C>>(
    rows: &mut P,
    index: usize,
    asked: &C,
    most: usize,
) -> Result<usize, usize> {
    let mut low = 0;
    let mut left = most;
    while left > 0 {
        let next = left / 2;
        let mid = low + (left - next);
        let order = rows.compare(index, &clipped(asked, mid));
        if order.is_gt() {
            low = mid;
        } else if order.is_eq() {
            return Ok(mid);
        }
        left = next;
    }
    Err(low)
}

/// Whether a network is inside the outer one or the same: whether its bits begin with those of the outer one.
///
/// ```
/// # use cidr::names::{errors::*, *};
/// # use cidr_table::{alloc::*, *};
/// # type Routes = LpmTable<Ipv4Cidr, u32>;
/// assert!(is_inside::<Ipv4Cidr>(&"10.1.0.0/16".parse()?, &"10.0.0.0/8".parse()?));
/// assert!(!(is_inside::<Ipv4Cidr>(&"10.0.0.0/8".parse()?, &"10.1.0.0/16".parse()?)));
/// # Ok::<(), Box<dyn std::error::Error>>(())
/// ```
#[inline]
pub fn is_inside<C: BitString>(network: &C, outer: &C) -> bool {
    network.shared_prefix_len(outer) == outer.len()
}

/// The first `len` bits of a network.
#[inline]
pub fn clipped<C: NetworkBits + Copy>(network: &C, len: usize) -> C {
    let mut clipped = *network;
    clipped.clip(len);
    clipped
}

/// The number of binary digits of a number, 0 of 0.
#[inline]
pub fn binary_digits(n: usize) -> usize {
    if n == 0 { 0 } else { n.ilog2() as usize + 1 }
}
