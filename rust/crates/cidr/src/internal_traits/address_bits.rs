//! The traits of addresses: what networks, hosts and pairs of one family are written over.

use crate::addr::error::AddrParseError;
use crate::addr::v4::Ipv4Addr;
use crate::addr::v6::Ipv6Addr;
use crate::arithmetic::halves::Halves;
use crate::arithmetic::{
    first_number, host_mask, host_part, last_number, order, same_first_bits, step_down, step_up,
};
use crate::family::Family;
use crate::num::NumberOfAddresses;
use cidr_support::arrayvec::ArrayString;
use core::cmp::Ordering;
use core::fmt::Debug;
use core::hash::Hash;

/// An address of one family, by its bits.
///
/// No other crate can name this trait, so that there are two families. Its clauses speak of lists of bits alone;
/// numbers and masks are found in the two implementations.
pub trait AddressBits: Sized + Copy + Ord + Hash {
    /// The family.
    const FAMILY: Family;

    /// Does nothing. An address has as many bits as the width says.
    fn has_width(self);

    /// The first address of its network of this length.
    fn first_in(self, len: u8) -> Self;

    /// The last address of its network of this length.
    fn last_in(self, len: u8) -> Self;

    /// As many ones as the length says, then zeros.
    fn mask_of(len: u8) -> Self;

    /// Whether it is the first address of its network of this length: all bits from `len` on are zero.
    fn is_first_in(self, len: u8) -> bool;

    /// Whether both have the same first `len` bits.
    fn shares(self, other: Self, len: u8) -> bool;

    /// The address `step` further in its network of this length, going round, and whether it went round.
    fn step_up(self, len: u8, step: u128) -> (Self, bool);

    /// The address `step` before in its network of this length, going round, and whether it went round.
    fn step_down(self, len: u8, step: u128) -> (Self, bool);

    /// The order of two addresses, and where they are the same, that of their lengths.
    fn order(self, len: u8, other: Self, other_len: u8) -> Ordering;

    /// Whether it comes before the other.
    fn is_below(self, other: Self) -> bool;

    /// How many addresses there are from this one to the last, inclusive.
    fn count_to(self, last: Self) -> NumberOfAddresses;

}

/// The strings of such an address.
pub trait AddressText: Sized + AddressBits + Debug {
    /// The address that a string is parsed as.
    ///
    /// # Errors
    ///
    /// `AddrParseError` for a string that is no address.
    fn read(text: &str) -> Result<Self, AddrParseError>;

    /// Appends the printed string.
    fn push_to(&self, text: &mut ArrayString<43>);
}

impl AddressBits for Ipv4Addr {
    const FAMILY: Family = Family::Ipv4;

    #[inline]
    fn has_width(self) {
        let _bits = self.to_bits();
    }

    #[inline]
    fn first_in(self, len: u8) -> Ipv4Addr {
        Ipv4Addr::from_bits(first_number(self.to_bits(), len))
    }

    #[inline]
    fn last_in(self, len: u8) -> Ipv4Addr {
        Ipv4Addr::from_bits(last_number(self.to_bits(), len))
    }

    #[inline]
    fn mask_of(len: u8) -> Ipv4Addr {
        Ipv4Addr::from_bits(u32::MAX - host_mask(len))
    }

    #[inline]
    fn is_first_in(self, len: u8) -> bool {
        host_part(self.to_bits(), len) == 0
    }

    #[inline]
    fn shares(self, other: Ipv4Addr, len: u8) -> bool {
        same_first_bits(self.to_bits(), other.to_bits(), len)
    }

    #[inline]
    fn step_up(self, len: u8, step: u128) -> (Ipv4Addr, bool) {
        let (stepped, wraps) = step_up(self.to_bits(), len, step);
        (Ipv4Addr::from_bits(stepped), wraps)
    }

    #[inline]
    fn step_down(self, len: u8, step: u128) -> (Ipv4Addr, bool) {
        let (stepped, wraps) = step_down(self.to_bits(), len, step);
        (Ipv4Addr::from_bits(stepped), wraps)
    }

    #[inline]
    fn order(self, len: u8, other: Ipv4Addr, other_len: u8) -> Ordering {
        order(self.to_bits(), len, other.to_bits(), other_len)
    }

    #[inline]
    fn is_below(self, other: Ipv4Addr) -> bool {
        self.to_bits() < other.to_bits()
    }

    #[inline]
    fn count_to(self, last: Ipv4Addr) -> NumberOfAddresses {
        NumberOfAddresses::between(
            Halves::new(0, u64::from(self.to_bits())),
            Halves::new(0, u64::from(last.to_bits())),
        )
    }

}

impl AddressText for Ipv4Addr {
    #[inline]
    fn read(text: &str) -> Result<Ipv4Addr, AddrParseError> {
        text.parse()
    }

    #[inline(always)]
    fn push_to(&self, text: &mut ArrayString<43>) {
        self.push_to(text);
    }
}

impl AddressBits for Ipv6Addr {
    const FAMILY: Family = Family::Ipv6;

    #[inline]
    fn has_width(self) {
        let _bits = self.to_bits();
    }

    #[inline]
    fn first_in(self, len: u8) -> Ipv6Addr {
        Ipv6Addr::from_halves(self.halves().first_number(len))
    }

    #[inline]
    fn last_in(self, len: u8) -> Ipv6Addr {
        Ipv6Addr::from_halves(self.halves().last_number(len))
    }

    #[inline]
    fn mask_of(len: u8) -> Ipv6Addr {
        Ipv6Addr::from_halves(Halves::network_mask(len))
    }

    #[inline]
    fn is_first_in(self, len: u8) -> bool {
        self.halves().host_part(len).is_zero()
    }

    #[inline]
    fn shares(self, other: Ipv6Addr, len: u8) -> bool {
        self.halves().same_first_bits(other.halves(), len)
    }

    #[inline]
    fn step_up(self, len: u8, step: u128) -> (Ipv6Addr, bool) {
        let (stepped, wraps) = self.halves().step_up(len, step);
        (Ipv6Addr::from_halves(stepped), wraps)
    }

    #[inline]
    fn step_down(self, len: u8, step: u128) -> (Ipv6Addr, bool) {
        let (stepped, wraps) = self.halves().step_down(len, step);
        (Ipv6Addr::from_halves(stepped), wraps)
    }

    #[inline]
    fn order(self, len: u8, other: Ipv6Addr, other_len: u8) -> Ordering {
        self.halves().order(len, other.halves(), other_len)
    }

    #[inline]
    fn is_below(self, other: Ipv6Addr) -> bool {
        self.halves().is_below(other.halves())
    }

    #[inline]
    fn count_to(self, last: Ipv6Addr) -> NumberOfAddresses {
        NumberOfAddresses::between(self.halves(), last.halves())
    }

}

impl AddressText for Ipv6Addr {
    #[inline]
    fn read(text: &str) -> Result<Ipv6Addr, AddrParseError> {
        text.parse()
    }

    #[inline(always)]
    fn push_to(&self, text: &mut ArrayString<43>) {
        self.push_to(text);
    }
}
