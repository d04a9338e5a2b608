//! Which lengths keys may have.

use crate::keys::Keys;
use cidr::BitString;

/// Says that a key may have so many bits, as far as the array reaches.
#[inline]
pub fn add_length(lengths: &mut [u8], len: usize) {
    if len < lengths.len() {
        lengths[len] = 1;
    }
}

/// The same of the lengths of all keys.
#[inline]
pub fn add_lengths<C: BitString + Copy, K: Keys<C>>(rows: &K, lengths: &mut [u8]) {
    for i in 0..rows.len() {
        add_length(lengths, rows.key(i).len());
    }
}

/// The longest of the lengths up to one that keys may have, or `None` where they may have none of them.
pub fn longest_length(lengths: &[u8], most: usize) -> Option<usize> {
    if most >= lengths.len() {
        return Some(most);
    }
    let mut end = most + 1;
    while end > 0 {
        end -= 1;
        if lengths[end] != 0 {
            return Some(end);
        }
    }
    None
}
