//! The searches.

use crate::keys::Keys;
use crate::lengths::longest_length;
use cidr::{BitString, NetworkBits};
use cidr_table::is_inside;

/// Where a network stands, or the index before which it would: each before that is less, and each from there on greater.
#[inline]
pub fn find<C: NetworkBits + Copy, K: Keys<C>>(rows: &K, key: &C) -> Result<usize, usize> {
    place_of(rows, key, rows.len())
}

/// The index of the longest network that the look-up key is in, or `None` where it is in none.
///
/// Only lengths that networks may have are searched for: `lengths` has 0 at the index of a length that none has. Of a length that
/// it does not reach it tells nothing, so that an empty one is right of all networks.
#[inline]
pub fn longest<C: NetworkBits + Copy, K: Keys<C>>(
    rows: &K,
    lengths: &[u8],
    asked: &C,
) -> Option<usize> {
    longest_key(rows, lengths, asked)
}

/// The indexes of all networks that the look-up key is in, ascending, and so the shortest network first: at the beginning of
/// `out`, as many as it has room for; what is behind them there stays. Returns how many they are, at most one more than the
/// look-up key has bits.
pub fn covering<C: NetworkBits + Copy, K: Keys<C>>(rows: &K, asked: &C, out: &mut [usize]) -> usize {
    let Some(index) = longest_key(rows, &[], asked) else {
        return 0;
    };
    let len = rows.key(index).len().min(asked.len());
    if len == 0 {
        return put(out, 0, index);
    }
    // The others are shorter.
    let mut shorter = *asked;
    shorter.clip(len - 1);
    let count = covering(rows, &shorter, out);
    put(out, count, index)
}

/// Writes an index at another, if there is room for it, and returns the next one.
#[inline]
fn put(out: &mut [usize], at: usize, index: usize) -> usize {
    if at < out.len() {
        out[at] = index;
    }
    at + 1
}

/// Which networks are in the outer one, that may be one of them: those from the first index on and before the second.
pub fn covered<C: NetworkBits + Copy, K: Keys<C>>(rows: &K, outer: &C) -> (usize, usize) {
    let from = lower_bound(rows, outer);
    let mut to = from;
    let mut left = rows.len() - from;
    while left > 0 {
        let half = left / 2;
        if is_inside(&rows.key(to + half), outer) {
            to += left - half;
        }
        left = half;
    }
    (from, to)
}

/// How many keys come before this one.
#[inline]
fn lower_bound<C: Ord + Copy, K: Keys<C>>(rows: &K, key: &C) -> usize {
    let (Ok(index) | Err(index)) = place_of(rows, key, rows.len());
    index
}

/// Where a key stands among the first `end`, or the index before which it would.
#[inline]
fn place_of<C: Ord + Copy, K: Keys<C>>(rows: &K, key: &C, end: usize) -> Result<usize, usize> {
    place_between(rows, key, 0, end, end)
}

/// The same, sought from the end on: the nearer to it the key belongs, the fewer comparisons that takes.
fn place_back<C: Ord + Copy, K: Keys<C>>(rows: &K, key: &C, end: usize) -> Result<usize, usize> {
    // The key belongs before those from `upto` on.
    let mut upto = end;
    let mut step = 1;
    while step <= upto {
        let mid = upto - step;
        let order = rows.key(mid).cmp(key);
        if order.is_lt() {
            return place_between(rows, key, mid + 1, step - 1, end);
        }
        if order.is_eq() {
            return Ok(mid);
        }
        upto = mid;
        step += step.min(mid);
    }
    place_between(rows, key, 0, upto, end)
}

/// Where a key stands among the first `end`, or the index before which it would, that is among the `left` ones from `low` on or
/// behind these: those before are less, and those behind greater.
fn place_between<C: Ord + Copy, K: Keys<C>>(
    rows: &K,
    key: &C,
    mut low: usize,
    mut left: usize,
    end: usize,
) -> Result<usize, usize> {
    let mut found = false;
    while left > 0 {
        let half = left / 2;
        let order = rows.key(low + half).cmp(key);
        if order.is_lt() {
            low += left - half;
        } else {
            found = order.is_eq();
        }
        left = half;
    }
    if found { Ok(low) } else { Err(low) }
}

/// The index of a key among the first `end`: which are all; or else it comes before all, or most likely not far from the end.
fn seek<C: Ord + Copy, K: Keys<C>>(rows: &K, key: &C, end: usize) -> Result<usize, usize> {
    if end == rows.len() {
        return place_of(rows, key, end);
    }
    let order = rows.key(0).cmp(key);
    if order.is_lt() {
        return place_back(rows, key, end);
    }
    if order.is_eq() { Ok(0) } else { Err(0) }
}

/// The index of the longest key that begins the look-up key, or `None` where none does.
fn longest_key<C: NetworkBits + Copy, K: Keys<C>>(
    rows: &K,
    lengths: &[u8],
    asked: &C,
) -> Option<usize> {
    // The keys that the look-up key is in are among the first `end`, and `sought` is in them, too.
    let mut sought = *asked;
    let mut end = rows.len();
    while end > 0 {
        match seek(rows, &sought, end) {
            Ok(index) => return Some(index),
            Err(0) => return None,
            Err(index) => {
                let before = rows.key(index - 1);
                let shared = sought.shared_prefix_len(&before);
                if shared == before.len() {
                    return Some(index - 1);
                }
                let len = longest_length(lengths, shared)?;
                sought.clip(len);
                end = index - 1;
            }
        }
    }
    None
}
