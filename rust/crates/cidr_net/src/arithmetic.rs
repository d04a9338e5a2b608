//! The arithmetic of networks on the numbers of IPv4 addresses, of 32 bits. `halves` has that of 128 bits.

pub(crate) mod half;
pub(crate) mod halves;

use crate::cidr::network::NetworkCalls as _;
use crate::inet::host::HostCalls as _;
use crate::inet_pair::host_pair::HostPairCalls as _;
use core::cmp::Ordering;

/// Whether two numbers of 32 bits have the same first `len` bits.
#[inline]
pub(crate) const fn same_first_bits(value: u32, other: u32, len: u8) -> bool {
    (value ^ other).leading_zeros() >= (len as u32)
}

/// The greatest number of the bits from `len` on, of 32: all ones.
#[inline]
pub(crate) const fn host_mask(len: u8) -> u32 {
    (0xffff_ffff_u64 >> len) as u32
}

/// The number of the bits from `len` on, of 32.
#[inline]
pub(crate) const fn host_part(value: u32, len: u8) -> u32 {
    value & host_mask(len)
}

/// The first number of the network, of 32 bits: the bits from `len` on are zero.
#[inline]
pub(crate) const fn first_number(value: u32, len: u8) -> u32 {
    value - host_part(value, len)
}

/// The last number of the network, of 32 bits: the bits from `len` on are one.
#[inline]
pub(crate) const fn last_number(value: u32, len: u8) -> u32 {
    value + (host_mask(len) - host_part(value, len))
}

/// The number of 32 bits `step` further in its network, and whether that wrapped.
#[inline]
pub(crate) const fn step_up(value: u32, len: u8, step: u128) -> (u32, bool) {
    let host = host_part(value, len);
    let stepped = host_part(host.wrapping_add((step & 0xffff_ffff) as u32), len);
    (
        first_number(value, len) + stepped,
        step > ((host_mask(len) - host) as u128),
    )
}

/// The number of 32 bits `step` before in its network, and whether that wrapped.
#[inline]
pub(crate) const fn step_down(value: u32, len: u8, step: u128) -> (u32, bool) {
    let host = host_part(value, len);
    let stepped = host_part(host.wrapping_sub((step & 0xffff_ffff) as u32), len);
    (first_number(value, len) + stepped, step > (host as u128))
}

/// The order of two numbers of 32 bits, and where they are the same, that of their lengths, by one comparison.
#[inline]
pub(crate) fn order(value: u32, len: u8, other: u32, other_len: u8) -> Ordering {
    let key = (value as u64) * 256 + (len as u64);
    let other_key = (other as u64) * 256 + (other_len as u64);
    key.cmp(&other_key)
}

/// How many of the first bits of two numbers of 32 bits are the same.
#[inline]
pub(crate) const fn shared_len(value: u32, other: u32) -> u8 {
    (value ^ other).leading_zeros() as u8
}

/// Bit `i` of a number of 32 bits, the most significant first.
#[inline]
pub(crate) const fn bit(value: u32, i: u8) -> bool {
    value >> (31 - (i as u32)) & 1 == 1
}

/// The number of 32 bits whose bit `i` is `b`, the most significant first.
#[inline]
pub(crate) const fn with_bit(value: u32, i: u8, b: bool) -> u32 {
    let place = 1 << (31 - (i as u32));
    if b { value | place } else { value & !place }
}

/// The number of 32 bits with bit `i` inverted, the most significant first.
#[inline]
pub(crate) const fn with_flipped_bit(value: u32, i: u8) -> u32 {
    value ^ ((1 << 31) >> i)
}
