//! How many addresses a walk has.

use crate::arithmetic::halves::Halves;
use core::fmt;

/// A number of addresses from 0 to 2^128. A `u128` has no room for the greatest.
#[derive(Clone, Copy, Debug, PartialEq, Eq, PartialOrd, Ord, Hash)]
pub enum NumberOfAddresses {
    /// This many.
    Count(u128),
    /// 2^128: all addresses of IPv6.
    MaxIpv6Addresses,
}

impl NumberOfAddresses {
    /// How many there are from the first to the last, inclusive: none where the first is above the last.
    #[inline]
    pub(crate) const fn between(first: Halves, last: Halves) -> NumberOfAddresses {
        if last.is_below(first) {
            return NumberOfAddresses::Count(0);
        }
        match last.wrapping_sub(first).join() {
            u128::MAX => NumberOfAddresses::MaxIpv6Addresses,
            steps => NumberOfAddresses::Count(steps + 1),
        }
    }

    /// What `size_hint` returns for so many.
    #[inline]
    pub(crate) fn size_hint(self) -> (usize, Option<usize>) {
        match self {
            NumberOfAddresses::Count(count) => match usize::try_from(count) {
                Ok(count) => (count, Some(count)),
                Err(_) => (usize::MAX, None),
            },
            NumberOfAddresses::MaxIpv6Addresses => (0, None),
        }
    }
}

impl fmt::Display for NumberOfAddresses {
    #[inline]
    fn fmt(&self, f: &mut fmt::Formatter<'_>) -> fmt::Result {
        match self {
            NumberOfAddresses::Count(count) => write!(f, "{count}"),
            NumberOfAddresses::MaxIpv6Addresses => {
                f.write_str("340282366920938463463374607431768211456")
            }
        }
    }
}
