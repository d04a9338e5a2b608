//! Addresses of IPv6 in two halves.

use crate::address::Address;

/// The number of an IPv6 address in two halves, the higher one first.
#[derive(Clone, Copy)]
#[repr(C)]
pub struct Ipv6Halves {
    /// The first 64 bits.
    pub high: u64,
    /// The last 64 bits.
    pub low: u64,
}

impl Address for Ipv6Halves {
    #[inline(always)]
    fn number(self) -> u128 {
        (u128::from(self.high) << 64) + u128::from(self.low)
    }

    #[inline(always)]
    fn of(number: u128) -> Ipv6Halves {
        Ipv6Halves {
            high: (number >> 64) as u64,
            low: (number % (1 << 64)) as u64,
        }
    }

    #[inline(always)]
    fn width() -> u32 {
        128
    }

    #[inline(always)]
    fn padding() -> u32 {
        2
    }

    #[inline(always)]
    fn padded_width() -> u32 {
        130
    }

    #[inline]
    fn steps_for(networks: usize) -> u32 {
        if networks < 64 { 20 } else { 19 }
    }

    #[inline(always)]
    fn block(self, shift: u32) -> usize {
        first_bits(self.high, self.low, shift) as usize
    }

    #[inline(always)]
    fn behind(self, count: u32) -> Ipv6Halves {
        behind(self.high, self.low, count)
    }

    #[inline(always)]
    fn part(self) -> u32 {
        first_part(self.high, self.low)
    }

    #[inline(always)]
    fn list_word(self) -> u32 {
        list_bits(self.high, self.low)
    }
}

/// The number of the bits before the last `shift`, which has none of the lower half.
#[inline(always)]
fn first_bits(high: u64, _low: u64, shift: u32) -> u64 {
    high >> (shift - 66)
}

/// The bits behind the first ones, and zeros behind them.
#[inline(always)]
fn behind(high: u64, low: u64, count: u32) -> Ipv6Halves {
    Ipv6Halves {
        high: (high << count) + (low >> (64 - count)),
        low: low << count,
    }
}

/// The first six bits.
#[inline(always)]
fn first_part(high: u64, _low: u64) -> u32 {
    (high >> 58) as u32
}

/// The 32 bits before the last 82, which has the lower half and 16 bits of the higher one.
#[inline(always)]
fn list_bits(high: u64, _low: u64) -> u32 {
    ((high >> 16) % (1 << 32)) as u32
}
