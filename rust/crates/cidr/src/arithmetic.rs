//! The arithmetic of networks on the numbers of IPv4 addresses, of 32 bits. `halves` has that of 128 bits.

pub(crate) mod half;
pub(crate) mod halves;

use core::cmp::Ordering;

/// Whether two numbers of 32 bits have the same first `len` bits.
#[inline]
pub(crate) fn same_first_bits(value: u32, other: u32, len: u8) -> bool {
    (value ^ other).leading_zeros() >= u32::from(len)
}

/// The greatest number of the bits from `len` on, of 32: all ones.
#[inline]
pub(crate) fn host_mask(len: u8) -> u32 {
    (0xffff_ffff_u64 >> len) as u32
}

/// The number of the bits from `len` on, of 32.
#[inline]
pub(crate) fn host_part(value: u32, len: u8) -> u32 {
    value & host_mask(len)
}

/// The first number of the network, of 32 bits: the bits from `len` on are zero.
#[inline]
pub(crate) fn first_number(value: u32, len: u8) -> u32 {
    value - host_part(value, len)
}

/// The last number of the network, of 32 bits: the bits from `len` on are one.
#[inline]
pub(crate) fn last_number(value: u32, len: u8) -> u32 {
    value + (host_mask(len) - host_part(value, len))
}

/// The number of 32 bits `step` further in its network, and whether that wrapped.
#[inline]
pub(crate) fn step_up(value: u32, len: u8, step: u128) -> (u32, bool) {
    let host = host_part(value, len);
    let stepped = host_part(host.wrapping_add((step & 0xffff_ffff) as u32), len);
    (
        first_number(value, len) + stepped,
        step > u128::from(host_mask(len) - host),
    )
}

/// The number of 32 bits `step` before in its network, and whether that wrapped.
#[inline]
pub(crate) fn step_down(value: u32, len: u8, step: u128) -> (u32, bool) {
    let host = host_part(value, len);
    let stepped = host_part(host.wrapping_sub((step & 0xffff_ffff) as u32), len);
    (first_number(value, len) + stepped, step > u128::from(host))
}

/// The order of two numbers of 32 bits, and where they are the same, that of their lengths, by one comparison.
#[inline]
pub(crate) fn order(value: u32, len: u8, other: u32, other_len: u8) -> Ordering {
    let key = u64::from(value) * 256 + u64::from(len);
    let other_key = u64::from(other) * 256 + u64::from(other_len);
    key.cmp(&other_key)
}

/// How many of the first bits of two numbers of 32 bits are the same.
#[inline]
pub(crate) fn shared_len(value: u32, other: u32) -> u8 {
    (value ^ other).leading_zeros() as u8
}

/// Bit `i` of a number of 32 bits, the most significant first.
#[inline]
pub(crate) fn bit(value: u32, i: u8) -> bool {
    value >> (31 - u32::from(i)) & 1 == 1
}

/// The number of 32 bits whose bit `i` is `b`, the most significant first.
#[inline]
pub(crate) fn with_bit(value: u32, i: u8, b: bool) -> u32 {
    let place = 1 << (31 - u32::from(i));
    if b { value | place } else { value & !place }
}

/// The number of 32 bits with bit `i` inverted, the most significant first.
#[inline]
pub(crate) fn with_flipped_bit(value: u32, i: u8) -> u32 {
    value ^ ((1 << 31) >> i)
}
