//! The arithmetic of one half: 64 bits of a number of 128.

/// The greatest number of the bits from `len` on: all ones, and zero where there are none.
#[inline]
pub(crate) fn host_mask(len: u8) -> u64 {
    if len < 64 { u64::MAX >> len } else { 0 }
}

/// The number of the bits from `len` on.
#[inline]
pub(crate) fn host_part(half: u64, len: u8) -> u64 {
    half & host_mask(len)
}

/// How much greater the number of the bits from `len` on can be.
#[inline]
pub(crate) fn host_room(half: u64, len: u8) -> u64 {
    host_mask(len) - host_part(half, len)
}

/// The greatest half with the same first `len` bits: from there on they are one.
#[inline]
pub(crate) fn last_number(half: u64, len: u8) -> u64 {
    half + host_room(half, len)
}

/// The first `len` bits of the half, and from there on those of the other.
#[inline]
pub(crate) fn with_host_part(half: u64, other: u64, len: u8) -> u64 {
    half - host_part(half, len) + host_part(other, len)
}

/// How many of the first bits of two halves are the same.
#[inline]
pub(crate) fn shared_len(half: u64, other: u64) -> u8 {
    (half ^ other).leading_zeros() as u8
}

/// Bit `i`, the most significant first.
#[inline]
pub(crate) fn bit(half: u64, i: u8) -> bool {
    half >> (63 - i) & 1 == 1
}

/// The half whose bit `i` is `b`, the most significant first.
#[inline]
pub(crate) fn with_bit(half: u64, i: u8, b: bool) -> u64 {
    let place = 1 << (63 - i);
    if b { half | place } else { half & !place }
}
