//! Compact bytes of the networks and hosts of either family, and of `any`.

use crate::cidr::network::NetworkCalls as _;
use crate::inet::host::HostCalls as _;
use crate::inet_pair::host_pair::HostPairCalls as _;
use crate::cidr::any::AnyIpCidr;
use crate::cidr::combined::IpCidr;
use crate::cidr::network::{Ipv4Cidr, Ipv6Cidr};
use crate::compact::front::{Front, read_front};
use crate::errors::CompactError;
use crate::inet::combined::IpInet;
use crate::inet::host::{Ipv4Inet, Ipv6Inet};
use cidr_support::arrayvec::ArrayVec;

impl IpCidr {
    /// The compact bytes, as the network of its family has them: 5 in IPv4 and 17 in IPv6.
    ///
    /// No other network's bytes begin with them, in either family.
    ///
    /// ```
    /// # use cidr::{errors::*, more::{canon::*, *}, parsers::*, *};
    /// # use std::net::*;
    /// assert_eq!(format!("{:?}", "10.0.0.0/8".parse::<IpCidr>()?.to_compact()), "[8, 10, 0, 0, 0]");
    /// # Ok::<(), Box<dyn std::error::Error>>(())
    /// ```
    #[inline]
    pub fn to_compact(&self) -> ArrayVec<u8, 17> {
        match self {
            IpCidr::V4(network) => network.to_compact(),
            IpCidr::V6(network) => network.to_compact(),
        }
    }

    /// The network whose compact bytes come first, and how many they are. The bytes after them are ignored.
    ///
    /// Where no network's bytes come first, it returns the first error of: no byte (`Truncated`), `InvalidTag`, too few
    /// octets (`Truncated`), `InvalidAny`, `InvalidHostPart`.
    ///
    /// ```
    /// # use cidr::{errors::*, more::{canon::*, *}, parsers::*, *};
    /// # use std::net::*;
    /// assert_eq!(format!("{:?}", IpCidr::from_compact(&[8, 10, 0, 0, 0])), "Ok((V4(10.0.0.0/8), 5))");
    /// assert_eq!(format!("{:?}", IpCidr::from_compact(&[8, 10, 0, 0, 1])), "Err(host part of address was not zero)");
    /// # Ok::<(), Box<dyn std::error::Error>>(())
    /// ```
    ///
    /// # Errors
    ///
    /// `CompactError`, whose variant is the first error in the order of the bytes.
    pub fn from_compact(bytes: &[u8]) -> Result<(IpCidr, usize), CompactError> {
        let (value, used) = match AnyIpCidr::from_compact(bytes) {
            Ok(read) => read,
            Err(e) => return Err(e),
        };
        match value {
            AnyIpCidr::Any => Err(CompactError::InvalidAny),
            AnyIpCidr::V4(network) => Ok((IpCidr::V4(network), used)),
            AnyIpCidr::V6(network) => Ok((IpCidr::V6(network), used)),
        }
    }
}

impl IpInet {
    /// The compact bytes, as the host of its family has them: 5 in IPv4 and 17 in IPv6.
    ///
    /// No other host's bytes begin with them, in either family.
    ///
    /// ```
    /// # use cidr::{errors::*, more::{canon::*, *}, parsers::*, *};
    /// # use std::net::*;
    /// assert_eq!(format!("{:?}", "10.4.3.2/8".parse::<IpInet>()?.to_compact()), "[8, 10, 4, 3, 2]");
    /// # Ok::<(), Box<dyn std::error::Error>>(())
    /// ```
    #[inline]
    pub fn to_compact(&self) -> ArrayVec<u8, 17> {
        match self {
            IpInet::V4(host) => host.to_compact(),
            IpInet::V6(host) => host.to_compact(),
        }
    }

    /// The host whose compact bytes come first, and how many they are. The bytes after them are ignored.
    ///
    /// Where no host's bytes come first, it returns the first error of: no byte (`Truncated`), `InvalidTag`, too few
    /// octets (`Truncated`), `InvalidAny`.
    ///
    /// ```
    /// # use cidr::{errors::*, more::{canon::*, *}, parsers::*, *};
    /// # use std::net::*;
    /// assert_eq!(format!("{:?}", IpInet::from_compact(&[8, 10, 4, 3, 2])), "Ok((V4(10.4.3.2/8), 5))");
    /// assert_eq!(format!("{:?}", IpInet::from_compact(&[255])), "Err(invalid value: `any`)");
    /// # Ok::<(), Box<dyn std::error::Error>>(())
    /// ```
    ///
    /// # Errors
    ///
    /// `CompactError`, whose variant is the first error in the order of the bytes.
    pub fn from_compact(bytes: &[u8]) -> Result<(IpInet, usize), CompactError> {
        let front = match read_front(bytes) {
            Ok(front) => front,
            Err(e) => return Err(e),
        };
        match front {
            Front::Any => Err(CompactError::InvalidAny),
            Front::V4(address, len) => {
                let host = Ipv4Inet::new_unchecked(address, len);
                Ok((IpInet::V4(host), 5))
            }
            Front::V6(address, len) => {
                let host = Ipv6Inet::new_unchecked(address, len);
                Ok((IpInet::V6(host), 17))
            }
        }
    }
}

impl AnyIpCidr {
    /// The compact bytes: the one byte 0xff for `Any`, and else those of the network.
    ///
    /// No other value's bytes begin with them, in either family.
    ///
    /// ```
    /// # use cidr::{errors::*, more::{canon::*, *}, parsers::*, *};
    /// # use std::net::*;
    /// assert_eq!(format!("{:?}", AnyIpCidr::Any.to_compact()), "[255]");
    /// # Ok::<(), Box<dyn std::error::Error>>(())
    /// ```
    #[inline]
    pub fn to_compact(&self) -> ArrayVec<u8, 17> {
        match self {
            AnyIpCidr::Any => any_bytes(),
            AnyIpCidr::V4(network) => network.to_compact(),
            AnyIpCidr::V6(network) => network.to_compact(),
        }
    }

    /// The value whose compact bytes come first, and how many they are. The bytes after them are ignored.
    ///
    /// Where no value's bytes come first, it returns the first error of: no byte (`Truncated`), `InvalidTag`, too few
    /// octets (`Truncated`), `InvalidHostPart`.
    ///
    /// ```
    /// # use cidr::{errors::*, more::{canon::*, *}, parsers::*, *};
    /// # use std::net::*;
    /// assert_eq!(format!("{:?}", AnyIpCidr::from_compact(&[255, 1])), "Ok((Any, 1))");
    /// assert_eq!(format!("{:?}", AnyIpCidr::from_compact(&[])), "Err(compact bytes end too early)");
    /// # Ok::<(), Box<dyn std::error::Error>>(())
    /// ```
    ///
    /// # Errors
    ///
    /// `CompactError`, whose variant is the first error in the order of the bytes.
    pub fn from_compact(bytes: &[u8]) -> Result<(AnyIpCidr, usize), CompactError> {
        let front = match read_front(bytes) {
            Ok(front) => front,
            Err(e) => return Err(e),
        };
        match front {
            Front::Any => Ok((AnyIpCidr::Any, 1)),
            Front::V4(address, len) => match Ipv4Cidr::new(address, len) {
                Ok(network) => Ok((AnyIpCidr::V4(network), 5)),
                Err(_) => Err(CompactError::InvalidHostPart),
            },
            Front::V6(address, len) => match Ipv6Cidr::new(address, len) {
                Ok(network) => Ok((AnyIpCidr::V6(network), 17)),
                Err(_) => Err(CompactError::InvalidHostPart),
            },
        }
    }
}

/// The bytes of `any`.
#[inline]
fn any_bytes() -> ArrayVec<u8, 17> {
    let mut bytes = ArrayVec::new();
    bytes.push(0xff);
    bytes
}
