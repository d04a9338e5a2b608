//! Addresses by their numbers.

/// The number of an address, as it lies in an array: a `u32` of IPv4 or [`Ipv6Halves`](crate::Ipv6Halves) of IPv6, and the bytes
/// of these, as a file has them.
///
/// The nodes of a look-up table divide by six bits. So that all bits but the first are parts of six, a number has some
/// zeros behind its bits there.
pub trait Address: Sized + Copy {
    /// The number.
    ///
    /// ```
    /// # use cidr::Ipv4Cidr;
    /// # use cidr_lookup::*;
    /// # use cidr_support::alloc::Global;
    /// # use cidr_table::LpmTable;
    /// # use core::net::Ipv4Addr;
    /// assert_eq!(Ipv6Halves { high: 1, low: 2 }.number(), 18446744073709551618);
    /// # Ok::<(), Box<dyn std::error::Error>>(())
    /// ```
    fn number(self) -> u128;

    /// The address with a number. The caller has to ensure that it is below 2^32 in IPv4, or below 2^128 in IPv6, as
    /// each `u128` is.
    ///
    /// ```
    /// # use cidr::Ipv4Cidr;
    /// # use cidr_lookup::*;
    /// # use cidr_support::alloc::Global;
    /// # use cidr_table::LpmTable;
    /// # use core::net::Ipv4Addr;
    /// assert_eq!(Ipv6Halves::of(18446744073709551618).low, 2);
    /// # Ok::<(), Box<dyn std::error::Error>>(())
    /// ```
    fn of(number: u128) -> Self;

    /// How many bits an address has: 32 or 128.
    ///
    /// ```
    /// # use cidr::Ipv4Cidr;
    /// # use cidr_lookup::*;
    /// # use cidr_support::alloc::Global;
    /// # use cidr_table::LpmTable;
    /// # use core::net::Ipv4Addr;
    /// assert_eq!(u32::width(), 32);
    /// # Ok::<(), Box<dyn std::error::Error>>(())
    /// ```
    fn width() -> u32;

    /// How many zeros are behind them: 4 in IPv4, 2 in IPv6.
    ///
    /// ```
    /// # use cidr::Ipv4Cidr;
    /// # use cidr_lookup::*;
    /// # use cidr_support::alloc::Global;
    /// # use cidr_table::LpmTable;
    /// # use core::net::Ipv4Addr;
    /// assert_eq!(u32::padding(), 4);
    /// # Ok::<(), Box<dyn std::error::Error>>(())
    /// ```
    fn padding() -> u32;

    /// How many bits it has with its zeros: 36 or 130, so that the first ones, before steps of six bits, are never just 32.
    ///
    /// ```
    /// # use cidr::Ipv4Cidr;
    /// # use cidr_lookup::*;
    /// # use cidr_support::alloc::Global;
    /// # use cidr_table::LpmTable;
    /// # use core::net::Ipv4Addr;
    /// assert_eq!(u32::padded_width(), 36);
    /// # Ok::<(), Box<dyn std::error::Error>>(())
    /// ```
    fn padded_width() -> u32;

    /// How many steps of six bits the table of so many networks has: those that are best, of at most 2^20 entries.
    ///
    /// ```
    /// # use cidr::Ipv4Cidr;
    /// # use cidr_lookup::*;
    /// # use cidr_support::alloc::Global;
    /// # use cidr_table::LpmTable;
    /// # use core::net::Ipv4Addr;
    /// assert_eq!(u32::steps_for(900_000), 3);
    /// # Ok::<(), Box<dyn std::error::Error>>(())
    /// ```
    fn steps_for(networks: usize) -> u32;

    /// The number of the bits before the last `shift`, of which there are at most 32.
    ///
    /// ```
    /// # use cidr::Ipv4Cidr;
    /// # use cidr_lookup::*;
    /// # use cidr_support::alloc::Global;
    /// # use cidr_table::LpmTable;
    /// # use core::net::Ipv4Addr;
    /// assert_eq!(0x0a010203u32.block(18), 10244);
    /// # Ok::<(), Box<dyn std::error::Error>>(())
    /// ```
    fn block(self, shift: u32) -> usize;

    /// The address that has the bits behind the first ones, of which there are 1 to 31, and zeros behind them.
    ///
    /// ```
    /// # use cidr::Ipv4Cidr;
    /// # use cidr_lookup::*;
    /// # use cidr_support::alloc::Global;
    /// # use cidr_table::LpmTable;
    /// # use core::net::Ipv4Addr;
    /// assert_eq!(0x0a010203u32.behind(8), 16909056);
    /// # Ok::<(), Box<dyn std::error::Error>>(())
    /// ```
    fn behind(self, count: u32) -> Self;

    /// The number of the first six bits.
    ///
    /// ```
    /// # use cidr::Ipv4Cidr;
    /// # use cidr_lookup::*;
    /// # use cidr_support::alloc::Global;
    /// # use cidr_table::LpmTable;
    /// # use core::net::Ipv4Addr;
    /// assert_eq!(0x0a010203u32.part(), 2);
    /// # Ok::<(), Box<dyn std::error::Error>>(())
    /// ```
    fn part(self) -> u32;

    /// The number of the 32 bits before the last 82, by which lists tell addresses: the bits 17 to 48 in IPv6, and 0 in IPv4.
    ///
    /// ```
    /// # use cidr::Ipv4Cidr;
    /// # use cidr_lookup::*;
    /// # use cidr_support::alloc::Global;
    /// # use cidr_table::LpmTable;
    /// # use core::net::Ipv4Addr;
    /// assert_eq!(Ipv6Halves { high: 0x2001_0db8_0000_0000, low: 0 }.list_word(), 230162432);
    /// # Ok::<(), Box<dyn std::error::Error>>(())
    /// ```
    fn list_word(self) -> u32;
}

impl Address for u32 {
    #[inline(always)]
    fn number(self) -> u128 {
        u128::from(self)
    }

    #[inline(always)]
    fn of(number: u128) -> u32 {
        number as u32
    }

    #[inline(always)]
    fn width() -> u32 {
        32
    }

    #[inline(always)]
    fn padding() -> u32 {
        4
    }

    #[inline(always)]
    fn padded_width() -> u32 {
        36
    }

    #[inline]
    fn steps_for(networks: usize) -> u32 {
        if networks < 64 {
            return 5;
        }
        if networks < 1000 { 4 } else { 3 }
    }

    #[inline(always)]
    fn block(self, shift: u32) -> usize {
        (self >> (shift - 4)) as usize
    }

    #[inline(always)]
    fn behind(self, count: u32) -> u32 {
        self << count
    }

    #[inline(always)]
    fn part(self) -> u32 {
        self >> 26
    }

    #[inline(always)]
    fn list_word(self) -> u32 {
        0
    }
}
