//! Compact bytes of the networks and hosts of one family.

use crate::cidr::network::NetworkCalls as _;
use crate::inet::host::HostCalls as _;
use crate::inet_pair::host_pair::HostPairCalls as _;
use crate::cidr::network::Network;
use crate::compact::front::bytes_used;
use crate::compact::octets::AddressOctets;
use crate::errors::CompactError;
use crate::inet::host::Host;
use cidr_support::arrayvec::ArrayVec;

impl<A: AddressOctets> Network<A> {
    /// The compact bytes: a tag, which is the prefix length, in IPv6 0x40 more, and the 4 or 16 octets of the first
    /// address. They are 5 bytes in IPv4 and 17 in IPv6.
    ///
    /// No other network's bytes begin with them, so that bytes of several networks may follow each other.
    ///
    /// ```
    /// # use cidr::{errors::*, more::{canon::*, *}, parsers::*, *};
    /// # use std::net::*;
    /// assert_eq!(format!("{:?}", "192.0.2.0/24".parse::<Ipv4Cidr>()?.to_compact()), "[24, 192, 0, 2, 0]");
    /// # Ok::<(), Box<dyn std::error::Error>>(())
    /// ```
    #[inline]
    pub fn to_compact(&self) -> ArrayVec<u8, 17> {
        self.first_address().compact(self.network_length())
    }

    /// The network whose compact bytes come first, and how many they are. The bytes after them are ignored.
    ///
    /// Where no network's bytes come first, it returns the first error of: no byte (`Truncated`), `InvalidTag`, too few
    /// octets (`Truncated`), `InvalidAny`, `InvalidFamily`, `InvalidHostPart`.
    ///
    /// ```
    /// # use cidr::{errors::*, more::{canon::*, *}, parsers::*, *};
    /// # use std::net::*;
    /// assert_eq!(format!("{:?}", Ipv4Cidr::from_compact(&[8, 10, 0, 0, 0, 99])), "Ok((10.0.0.0/8, 5))");
    /// assert_eq!(format!("{:?}", Ipv4Cidr::from_compact(&[24, 192, 0])), "Err(compact bytes end too early)");
    /// # Ok::<(), Box<dyn std::error::Error>>(())
    /// ```
    ///
    /// # Errors
    ///
    /// `CompactError`, whose variant is the first error in the order of the bytes.
    #[inline]
    pub fn from_compact(bytes: &[u8]) -> Result<(Network<A>, usize), CompactError> {
        match A::take_compact(bytes) {
            Ok((address, len)) => match Network::<A>::new(address, len) {
                Ok(network) => Ok((network, bytes_used(A::FAMILY))),
                Err(_) => Err(CompactError::InvalidHostPart),
            },
            Err(e) => Err(e),
        }
    }
}

impl<A: AddressOctets> Host<A> {
    /// The compact bytes: a tag, which is the prefix length, in IPv6 0x40 more, and the 4 or 16 octets of the address.
    ///
    /// No other host's bytes begin with them, so that bytes of several hosts may follow each other.
    ///
    /// ```
    /// # use cidr::{errors::*, more::{canon::*, *}, parsers::*, *};
    /// # use std::net::*;
    /// assert_eq!(format!("{:?}", "192.0.2.1/24".parse::<Ipv4Inet>()?.to_compact()), "[24, 192, 0, 2, 1]");
    /// # Ok::<(), Box<dyn std::error::Error>>(())
    /// ```
    #[inline]
    pub fn to_compact(&self) -> ArrayVec<u8, 17> {
        self.address().compact(self.network_length())
    }

    /// The host whose compact bytes come first, and how many they are. The bytes after them are ignored.
    ///
    /// Where no host's bytes come first, it returns the first error of: no byte (`Truncated`), `InvalidTag`, too few
    /// octets (`Truncated`), `InvalidAny`, `InvalidFamily`.
    ///
    /// ```
    /// # use cidr::{errors::*, more::{canon::*, *}, parsers::*, *};
    /// # use std::net::*;
    /// assert_eq!(format!("{:?}", Ipv4Inet::from_compact(&[8, 10, 4, 3, 2])), "Ok((10.4.3.2/8, 5))");
    /// assert_eq!(format!("{:?}", Ipv4Inet::from_compact(&[33, 10, 4, 3, 2])), "Err(invalid tag)");
    /// # Ok::<(), Box<dyn std::error::Error>>(())
    /// ```
    ///
    /// # Errors
    ///
    /// `CompactError`, whose variant is the first error in the order of the bytes.
    #[inline]
    pub fn from_compact(bytes: &[u8]) -> Result<(Host<A>, usize), CompactError> {
        match A::take_compact(bytes) {
            Ok((address, len)) => Ok((Host::<A>::new_unchecked(address, len), bytes_used(A::FAMILY))),
            Err(e) => Err(e),
        }
    }
}
