//! The family of an address.

use crate::cidr::network::NetworkCalls as _;
use crate::inet::host::HostCalls as _;
use crate::inet_pair::host_pair::HostPairCalls as _;
use crate::addr::ip::IpAddr;
use crate::addr::v4::Ipv4Addr;
use crate::addr::v6::Ipv6Addr;

/// The family of an address: IPv4 or IPv6. `Ipv4` is less than `Ipv6`.
#[derive(Clone, Copy, Debug, PartialEq, Eq, PartialOrd, Ord, Hash)]
pub enum Family {
    Ipv4,
    Ipv6,
}

impl Family {
    /// The number of bits of an address of the family, which is its greatest prefix length: 32 or 128.
    ///
    /// ```
    /// # use cidr::{errors::*, more::{canon::*, *}, parsers::*, *};
    /// # use std::net::*;
    /// assert_eq!(Family::Ipv4.len(), 32);
    /// assert_eq!(Family::Ipv6.len(), 128);
    /// # Ok::<(), Box<dyn std::error::Error>>(())
    /// ```
    #[inline]
    pub const fn len(&self) -> u8 {
        match self {
            Family::Ipv4 => 32,
            Family::Ipv6 => 128,
        }
    }

    /// The unspecified address, all of whose bits are zero: 0.0.0.0 (RFC 1122, 3.2.1.3) or :: (RFC 4291, 2.5.2).
    ///
    /// ```
    /// # use cidr::{errors::*, more::{canon::*, *}, parsers::*, *};
    /// # use std::net::*;
    /// assert_eq!(format!("{}", Family::Ipv4.unspecified_address()), "0.0.0.0");
    /// assert_eq!(format!("{}", Family::Ipv6.unspecified_address()), "::");
    /// # Ok::<(), Box<dyn std::error::Error>>(())
    /// ```
    #[inline]
    pub const fn unspecified_address(&self) -> IpAddr {
        match self {
            Family::Ipv4 => IpAddr::V4(Ipv4Addr::from_bits(0)),
            Family::Ipv6 => IpAddr::V6(Ipv6Addr::from_bits(0)),
        }
    }

    /// The loopback address: 127.0.0.1 or ::1 (RFC 4291, 2.5.3). All of 127.0.0.0/8 is for loopback (RFC 1122,
    /// 3.2.1.3); this is the address that `localhost` usually stands for.
    ///
    /// ```
    /// # use cidr::{errors::*, more::{canon::*, *}, parsers::*, *};
    /// # use std::net::*;
    /// assert_eq!(format!("{}", Family::Ipv4.loopback_address()), "127.0.0.1");
    /// assert_eq!(format!("{}", Family::Ipv6.loopback_address()), "::1");
    /// # Ok::<(), Box<dyn std::error::Error>>(())
    /// ```
    #[inline]
    pub const fn loopback_address(&self) -> IpAddr {
        match self {
            Family::Ipv4 => IpAddr::V4(Ipv4Addr::new(127, 0, 0, 1)),
            Family::Ipv6 => IpAddr::V6(Ipv6Addr::new(0, 0, 0, 0, 0, 0, 0, 1)),
        }
    }
}
