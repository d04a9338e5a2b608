//! The families of addresses, as files have them.

use cidr_support::vec::Vec;
use cidr_lookup::Address;
use cidr_support::alloc::AllocError;

/// The bytes of an IPv4 address in a file: its number, the least significant byte first, which is not network byte
/// order. 192.0.2.1 is `[1, 2, 0, 192]`.
pub type Ipv4Bytes = [u8; 4];

/// The bytes of an IPv6 address in a file: the numbers of its first 64 bits and of its last 64, of each the least
/// significant byte first.
pub type Ipv6Bytes = [[u8; 8]; 2];

/// A family of addresses, as files have them: [`Ipv4Bytes`] or [`Ipv6Bytes`].
pub trait FileAddress: Sized + Address {
    /// The addresses that bytes are, 4 or 16 bytes each, where they lie: nothing is copied. Bytes at the end that are too
    /// few for one are left out.
    ///
    /// ```
    /// # use cidr_files::*;
    /// # use cidr_lookup::{Address, Key};
    /// # use cidr_support::{alloc::Global, vec::Vec};
    /// # use core::net::{Ipv4Addr, Ipv6Addr};
    /// # fn name<'a>(table: &FileTables<'a>, address: Ipv4Addr) -> Option<&'a str> {
    /// #     core::str::from_utf8(lookup(&table.ipv4, address.to_bits().to_le_bytes())?.1).ok()
    /// # }
    /// assert_eq!(format!("{:?}", Ipv4Bytes::addresses(&[1, 2, 0, 192])), "[[1, 2, 0, 192]]");
    /// # Ok::<(), Box<dyn std::error::Error>>(())
    /// ```
    fn addresses(bytes: &[u8]) -> &[Self];

    /// Appends the bytes of the address with this number. The caller has to ensure that it is below 2^32 in IPv4, or
    /// below 2^128 in IPv6, as each `u128` is. The error is that an allocation fails; what is behind the old bytes then
    /// is not told.
    ///
    /// ```
    /// # use cidr_files::*;
    /// # use cidr_lookup::{Address, Key};
    /// # use cidr_support::{alloc::Global, vec::Vec};
    /// # use core::net::{Ipv4Addr, Ipv6Addr};
    /// # fn name<'a>(table: &FileTables<'a>, address: Ipv4Addr) -> Option<&'a str> {
    /// #     core::str::from_utf8(lookup(&table.ipv4, address.to_bits().to_le_bytes())?.1).ok()
    /// # }
    /// let mut bytes = Vec::new(Global);
    /// Ipv4Bytes::put(0xc0000201, &mut bytes)?;
    /// assert_eq!(format!("{:?}", bytes.as_slice()), "[1, 2, 0, 192]");
    /// # Ok::<(), Box<dyn std::error::Error>>(())
    /// ```
    ///
    /// # Errors
    ///
    /// `AllocError` where memory runs out.
    fn put(number: u128, out: &mut Vec<u8>) -> Result<(), AllocError>;

}

impl FileAddress for [u8; 4] {
    #[inline(always)]
    fn addresses(bytes: &[u8]) -> &[[u8; 4]] {
        let (addresses, _) = bytes.as_chunks::<4>();
        addresses
    }

    #[inline]
    fn put(number: u128, out: &mut Vec<u8>) -> Result<(), AllocError> {
        out.extend_from_slice(&(number as u32).to_le_bytes())?;
        Ok(())
    }

}

impl FileAddress for [[u8; 8]; 2] {
    #[inline(always)]
    fn addresses(bytes: &[u8]) -> &[[[u8; 8]; 2]] {
        let (halves, _) = bytes.as_chunks::<8>();
        let (addresses, _) = halves.as_chunks::<2>();
        addresses
    }

    #[inline]
    fn put(number: u128, out: &mut Vec<u8>) -> Result<(), AllocError> {
        out.extend_from_slice(&((number >> 64) as u64).to_le_bytes())?;
        out.extend_from_slice(&((number % (1 << 64)) as u64).to_le_bytes())?;
        Ok(())
    }

}
