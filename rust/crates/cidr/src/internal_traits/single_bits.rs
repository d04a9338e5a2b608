//! Single bits of an address, and how many bits two addresses begin with alike.

use crate::addr::v4::Ipv4Addr;
use crate::addr::v6::Ipv6Addr;
use crate::arithmetic::{bit, shared_len, with_bit, with_flipped_bit};
use crate::internal_traits::address_bits::AddressBits;

/// The bits of an address one by one, the most significant first.
pub trait SingleBits: Sized + AddressBits {
    /// Bit `i`.
    fn bit(self, i: u8) -> bool;

    /// The address whose bit `i` is `b`.
    fn with_bit(self, i: u8, b: bool) -> Self;

    /// The address with bit `i` inverted.
    fn with_flipped_bit(self, i: u8) -> Self;

    /// How many bits both begin with.
    fn shared_len(self, other: Self) -> u8;
}

impl SingleBits for Ipv4Addr {
    #[inline]
    fn bit(self, i: u8) -> bool {
        bit(self.to_bits(), i)
    }

    #[inline]
    fn with_bit(self, i: u8, b: bool) -> Ipv4Addr {
        Ipv4Addr::from_bits(with_bit(self.to_bits(), i, b))
    }

    #[inline]
    fn with_flipped_bit(self, i: u8) -> Ipv4Addr {
        Ipv4Addr::from_bits(with_flipped_bit(self.to_bits(), i))
    }

    #[inline]
    fn shared_len(self, other: Ipv4Addr) -> u8 {
        shared_len(self.to_bits(), other.to_bits())
    }
}

impl SingleBits for Ipv6Addr {
    #[inline]
    fn bit(self, i: u8) -> bool {
        self.halves().bit(i)
    }

    #[inline]
    fn with_bit(self, i: u8, b: bool) -> Ipv6Addr {
        Ipv6Addr::from_halves(self.halves().with_bit(i, b))
    }

    #[inline]
    fn with_flipped_bit(self, i: u8) -> Ipv6Addr {
        Ipv6Addr::from_halves(self.halves().with_flipped_bit(i))
    }

    #[inline]
    fn shared_len(self, other: Ipv6Addr) -> u8 {
        self.halves().shared_len(other.halves())
    }
}
