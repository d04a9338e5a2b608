//! The compact bytes of an address with a prefix length.

use crate::cidr::network::NetworkCalls as _;
use crate::inet::host::HostCalls as _;
use crate::inet_pair::host_pair::HostPairCalls as _;
use crate::addr::v4::Ipv4Addr;
use crate::addr::v6::Ipv6Addr;
use crate::compact::front::{Front, read_front};
use crate::errors::CompactError;
use crate::family::Family;
use crate::internal_traits::address_bits::AddressBits;
use cidr_support::arrayvec::ArrayVec;

/// An address that is written as a tag and octets.
pub trait AddressOctets: Sized + AddressBits {
    /// The compact bytes of this address with a prefix length.
    fn compact(self, len: u8) -> ArrayVec<u8, 17>;

    /// The address and the prefix length that compact bytes begin with, if they are of this family.
    ///
    /// # Errors
    ///
    /// `CompactError`, whose variant is the first error in the order of the bytes.
    fn take_compact(bytes: &[u8]) -> Result<(Self, u8), CompactError>;
}

impl AddressOctets for Ipv4Addr {
    #[inline]
    fn compact(self, len: u8) -> ArrayVec<u8, 17> {
        let [a, b, c, d] = self.octets();
        let mut bytes = ArrayVec::from([len, a, b, c, d, 0, 0, 0, 0, 0, 0, 0, 0, 0, 0, 0, 0]);
        bytes.truncate(5);
        bytes
    }

    #[inline]
    fn take_compact(bytes: &[u8]) -> Result<(Ipv4Addr, u8), CompactError> {
        match read_front(bytes)? {
            Front::V4(address, len) => Ok((address, len)),
            Front::V6(_, _) => Err(CompactError::InvalidFamily(Family::Ipv6)),
            Front::Any => Err(CompactError::InvalidAny),
        }
    }
}

impl AddressOctets for Ipv6Addr {
    #[inline]
    fn compact(self, len: u8) -> ArrayVec<u8, 17> {
        let [a, b, c, d, e, f, g, h, i, j, k, l, m, n, o, p] = self.octets();
        ArrayVec::from([0x40 + len, a, b, c, d, e, f, g, h, i, j, k, l, m, n, o, p])
    }

    #[inline]
    fn take_compact(bytes: &[u8]) -> Result<(Ipv6Addr, u8), CompactError> {
        match read_front(bytes)? {
            Front::V6(address, len) => Ok((address, len)),
            Front::V4(_, _) => Err(CompactError::InvalidFamily(Family::Ipv4)),
            Front::Any => Err(CompactError::InvalidAny),
        }
    }
}
