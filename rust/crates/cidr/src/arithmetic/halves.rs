//! The arithmetic of networks on numbers of 128 bits, in two halves.

use cidr_support::carry::Carrying;
use crate::arithmetic::half;
use core::cmp::Ordering;

/// A number of 128 bits in two halves.
#[derive(Clone, Copy)]
pub(crate) struct Halves {
    upper: u64,
    lower: u64,
}

impl Halves {
    /// The number with these halves.
    #[inline]
    pub(crate) fn new(upper: u64, lower: u64) -> Halves {
        Halves { upper, lower }
    }

    /// The upper half.
    #[inline]
    pub(crate) fn upper(self) -> u64 {
        self.upper
    }

    /// The lower half.
    #[inline]
    pub(crate) fn lower(self) -> u64 {
        self.lower
    }

    /// The halves of a number.
    #[inline]
    pub(crate) fn split(value: u128) -> Halves {
        Halves {
            upper: (value >> 64) as u64,
            lower: (value & 0xffff_ffff_ffff_ffff) as u64,
        }
    }

    /// The number as one.
    #[inline]
    pub(crate) fn join(self) -> u128 {
        (u128::from(self.upper) << 64) + u128::from(self.lower)
    }

    /// The sum, without what carries out of the upper half.
    #[inline]
    pub(crate) fn wrapping_add(self, other: Halves) -> Halves {
        let (lower, carry) = self.lower.carrying_add(other.lower, false);
        let (upper, _) = self.upper.carrying_add(other.upper, carry);
        Halves { upper, lower }
    }

    /// The difference, without what the upper half borrows.
    #[inline]
    pub(crate) fn wrapping_sub(self, other: Halves) -> Halves {
        let (lower, borrow) = self.lower.borrowing_sub(other.lower, false);
        let (upper, _) = self.upper.borrowing_sub(other.upper, borrow);
        Halves { upper, lower }
    }

    /// Whether it is below the other, by one comparison of both halves.
    #[inline]
    pub(crate) fn is_below(self, other: Halves) -> bool {
        self.join() < other.join()
    }

    /// The order of two numbers, and where they are the same, that of their lengths. Both comparisons are made before one
    /// of them is taken, so that a sort needs no branch.
    #[inline]
    pub(crate) fn order(self, len: u8, other: Halves, other_len: u8) -> Ordering {
        let rest = Halves::new(self.lower, u64::from(len)).join();
        let other_rest = Halves::new(other.lower, u64::from(other_len)).join();
        let of_rest = rest.cmp(&other_rest);
        let of_upper = self.upper.cmp(&other.upper);
        let is_tie = self.upper == other.upper;
        if is_tie { of_rest } else { of_upper }
    }

    /// The first `len` bits, and from there on those of the other.
    #[inline]
    pub(crate) fn with_host_part(self, other: Halves, len: u8) -> Halves {
        let lower_len = len.saturating_sub(64);
        Halves {
            upper: half::with_host_part(self.upper, other.upper, len),
            lower: half::with_host_part(self.lower, other.lower, lower_len),
        }
    }

    /// The number of the bits from `len` on.
    #[inline]
    pub(crate) fn host_part(self, len: u8) -> Halves {
        Halves {
            upper: half::host_part(self.upper, len),
            lower: half::host_part(self.lower, len.saturating_sub(64)),
        }
    }

    /// How much greater the number of the bits from `len` on can be.
    #[inline]
    pub(crate) fn host_room(self, len: u8) -> Halves {
        Halves {
            upper: half::host_room(self.upper, len),
            lower: half::host_room(self.lower, len.saturating_sub(64)),
        }
    }

    /// The first number of the network: the bits from `len` on are zero.
    #[inline]
    pub(crate) fn first_number(self, len: u8) -> Halves {
        self.with_host_part(Halves::new(0, 0), len)
    }

    /// The last number of the network: the bits from `len` on are one.
    #[inline]
    pub(crate) fn last_number(self, len: u8) -> Halves {
        Halves {
            upper: half::last_number(self.upper, len),
            lower: half::last_number(self.lower, len.saturating_sub(64)),
        }
    }

    /// The mask of the network: as many ones as `len` says, then zeros.
    #[inline]
    pub(crate) fn network_mask(len: u8) -> Halves {
        Halves::new(u64::MAX, u64::MAX).first_number(len)
    }

    /// Whether all bits are zero.
    #[inline]
    pub(crate) fn is_zero(self) -> bool {
        self.upper == 0 && self.lower == 0
    }

    /// The number `step` further in its network, and whether that wrapped.
    #[inline]
    pub(crate) fn step_up(self, len: u8, step: u128) -> (Halves, bool) {
        let step = Halves::split(step);
        let wraps = self.host_room(len).is_below(step);
        (self.with_host_part(self.wrapping_add(step), len), wraps)
    }

    /// The number `step` before in its network, and whether that wrapped.
    #[inline]
    pub(crate) fn step_down(self, len: u8, step: u128) -> (Halves, bool) {
        let step = Halves::split(step);
        let wraps = self.host_part(len).is_below(step);
        (self.with_host_part(self.wrapping_sub(step), len), wraps)
    }

    /// How many of the first bits of both are the same.
    #[inline]
    pub(crate) fn shared_len(self, other: Halves) -> u8 {
        if self.upper == other.upper {
            64 + half::shared_len(self.lower, other.lower)
        } else {
            half::shared_len(self.upper, other.upper)
        }
    }

    /// Whether both have the same first `len` bits.
    #[inline]
    pub(crate) fn same_first_bits(self, other: Halves, len: u8) -> bool {
        self.shared_len(other) >= len
    }

    /// Bit `i`, the most significant first.
    #[inline]
    pub(crate) fn bit(self, i: u8) -> bool {
        let half = if i < 64 { self.upper } else { self.lower };
        half::bit(half, i % 64)
    }

    /// The number whose bit `i` is `b`, the most significant first.
    #[inline]
    pub(crate) fn with_bit(self, i: u8, b: bool) -> Halves {
        if i < 64 {
            Halves::new(half::with_bit(self.upper, i, b), self.lower)
        } else {
            Halves::new(self.upper, half::with_bit(self.lower, i - 64, b))
        }
    }

    /// The number with bit `i` inverted, the most significant first.
    #[inline]
    pub(crate) fn with_flipped_bit(self, i: u8) -> Halves {
        Halves::split(self.join() ^ ((1 << 127) >> i))
    }
}
