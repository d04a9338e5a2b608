//! The network of either family, or every address.
//!
//! Its compact bytes stand in `compact::either_family`, the bits that it is a string of in `bits::any`, and its
//! `from_str` in `parsers::any`.

use crate::cidr::network::NetworkCalls as _;
use crate::inet::host::HostCalls as _;
use crate::inet_pair::host_pair::HostPairCalls as _;
use crate::addr::ip::IpAddr;
use crate::addr::v4::Ipv4Addr;
use crate::addr::v6::Ipv6Addr;
use crate::cidr::combined::IpCidr;
use crate::cidr::network::{Ipv4Cidr, Ipv6Cidr};
use crate::errors::NetworkParseError;
use crate::family::Family;
use crate::inet::combined::IpInet;
use crate::text::print::append;
use crate::text::with_length::WithLength;
use cidr_support::arrayvec::ArrayString;
use core::fmt;

/// An IPv4 or an IPv6 network, or every address of both families.
///
/// It is the type of an entry of an access list that may say `any`. Any other string is parsed as that of `IpCidr` is,
/// with its errors. `Any` comes first in the order, then the IPv4 networks, then the IPv6 networks. `Any` has no
/// family, no prefix length and no first address: the calls that return one of these return `None`.
///
/// ```
/// # use cidr::{errors::*, more::{canon::*, *}, parsers::*, *};
/// # use std::net::*;
/// assert_eq!(format!("{}", "any".parse::<AnyIpCidr>()?), "any");
/// assert!("any".parse::<AnyIpCidr>()? < "0.0.0.0/0".parse()?);
/// # Ok::<(), Box<dyn std::error::Error>>(())
/// ```
#[derive(Clone, Copy, Debug, PartialEq, Eq, PartialOrd, Ord, Hash)]
pub enum AnyIpCidr {
    /// Every address of both families. It is parsed from and printed as `any`, in lower case only.
    Any,
    V4(Ipv4Cidr),
    V6(Ipv6Cidr),
}

impl AnyIpCidr {
    /// The network of the first `len` bits of an address, of its family.
    ///
    /// Returns `NetworkLengthTooLongError` for a prefix length above the width, 32 or 128, and then `InvalidHostPart`
    /// for an address with a set bit after the first `len`.
    ///
    /// ```
    /// # use cidr::{errors::*, more::{canon::*, *}, parsers::*, *};
    /// # use std::net::*;
    /// assert_eq!(format!("{}", AnyIpCidr::new("10.0.0.0".parse()?, 8)?), "10.0.0.0/8");
    /// # Ok::<(), Box<dyn std::error::Error>>(())
    /// ```
    ///
    /// # Errors
    ///
    /// `NetworkParseError`, whose variant is the first of the errors in the order that the crate's page has.
    #[inline]
    pub const fn new(addr: IpAddr, len: u8) -> Result<AnyIpCidr, NetworkParseError> {
        match IpCidr::new(addr, len) {
            Ok(IpCidr::V4(network)) => Ok(AnyIpCidr::V4(network)),
            Ok(IpCidr::V6(network)) => Ok(AnyIpCidr::V6(network)),
            Err(e) => Err(e),
        }
    }

    /// The network that has only this address, of full prefix length: /32 in IPv4 and /128 in IPv6.
    ///
    /// ```
    /// # use cidr::{errors::*, more::{canon::*, *}, parsers::*, *};
    /// # use std::net::*;
    /// assert_eq!(format!("{}", AnyIpCidr::new_host("192.0.2.1".parse()?)), "192.0.2.1");
    /// # Ok::<(), Box<dyn std::error::Error>>(())
    /// ```
    #[inline]
    pub const fn new_host(addr: IpAddr) -> AnyIpCidr {
        match IpCidr::new_host(addr) {
            IpCidr::V4(network) => AnyIpCidr::V4(network),
            IpCidr::V6(network) => AnyIpCidr::V6(network),
        }
    }

    /// The network of one family, or `None` for `Any`.
    #[inline]
    const fn network(&self) -> Option<IpCidr> {
        match self {
            AnyIpCidr::Any => None,
            AnyIpCidr::V4(network) => Some(IpCidr::V4(*network)),
            AnyIpCidr::V6(network) => Some(IpCidr::V6(*network)),
        }
    }

    /// The first address, in which no bit after the prefix is set, or `None` for `Any`.
    ///
    /// ```
    /// # use cidr::{errors::*, more::{canon::*, *}, parsers::*, *};
    /// # use std::net::*;
    /// assert_eq!(format!("{:?}", "10.0.0.0/8".parse::<AnyIpCidr>()?.first_address()), "Some(10.0.0.0)");
    /// assert_eq!(format!("{:?}", AnyIpCidr::Any.first_address()), "None");
    /// # Ok::<(), Box<dyn std::error::Error>>(())
    /// ```
    #[inline]
    pub const fn first_address(&self) -> Option<IpAddr> {
        match self.network() {
            None => None,
            Some(network) => Some(network.first_address()),
        }
    }

    /// The last address, in which all bits after the prefix are set, or `None` for `Any`.
    ///
    /// ```
    /// # use cidr::{errors::*, more::{canon::*, *}, parsers::*, *};
    /// # use std::net::*;
    /// assert_eq!(format!("{:?}", "10.0.0.0/8".parse::<AnyIpCidr>()?.last_address()), "Some(10.255.255.255)");
    /// # Ok::<(), Box<dyn std::error::Error>>(())
    /// ```
    #[inline]
    pub const fn last_address(&self) -> Option<IpAddr> {
        match self.network() {
            None => None,
            Some(network) => Some(network.last_address()),
        }
    }

    /// The host at the first address, with the prefix length of the network, or `None` for `Any`.
    ///
    /// ```
    /// # use cidr::{errors::*, more::{canon::*, *}, parsers::*, *};
    /// # use std::net::*;
    /// assert_eq!(format!("{:?}", "10.0.0.0/8".parse::<AnyIpCidr>()?.first()), "Some(V4(10.0.0.0/8))");
    /// # Ok::<(), Box<dyn std::error::Error>>(())
    /// ```
    #[inline]
    pub const fn first(&self) -> Option<IpInet> {
        match self.network() {
            None => None,
            Some(network) => Some(network.first()),
        }
    }

    /// The host at the last address, with the prefix length of the network, or `None` for `Any`.
    ///
    /// ```
    /// # use cidr::{errors::*, more::{canon::*, *}, parsers::*, *};
    /// # use std::net::*;
    /// assert_eq!(format!("{:?}", "10.0.0.0/8".parse::<AnyIpCidr>()?.last()), "Some(V4(10.255.255.255/8))");
    /// # Ok::<(), Box<dyn std::error::Error>>(())
    /// ```
    #[inline]
    pub const fn last(&self) -> Option<IpInet> {
        match self.network() {
            None => None,
            Some(network) => Some(network.last()),
        }
    }

    /// The prefix length in bits, at most 32 in IPv4 and 128 in IPv6, or `None` for `Any`.
    ///
    /// ```
    /// # use cidr::{errors::*, more::{canon::*, *}, parsers::*, *};
    /// # use std::net::*;
    /// assert_eq!(format!("{:?}", "10.0.0.0/8".parse::<AnyIpCidr>()?.network_length()), "Some(8)");
    /// # Ok::<(), Box<dyn std::error::Error>>(())
    /// ```
    #[inline]
    pub const fn network_length(&self) -> Option<u8> {
        match self.network() {
            None => None,
            Some(network) => Some(network.network_length()),
        }
    }

    /// The family of its addresses, or `None` for `Any`, which has addresses of both.
    ///
    /// ```
    /// # use cidr::{errors::*, more::{canon::*, *}, parsers::*, *};
    /// # use std::net::*;
    /// assert_eq!(format!("{:?}", "10.0.0.0/8".parse::<AnyIpCidr>()?.family()), "Some(Ipv4)");
    /// # Ok::<(), Box<dyn std::error::Error>>(())
    /// ```
    #[inline]
    pub const fn family(&self) -> Option<Family> {
        match self.network() {
            None => None,
            Some(network) => Some(network.family()),
        }
    }

    /// Whether the network has only one address, that is, whether the prefix length is full. `Any` has more.
    ///
    /// ```
    /// # use cidr::{errors::*, more::{canon::*, *}, parsers::*, *};
    /// # use std::net::*;
    /// assert!("2001:db8::1".parse::<AnyIpCidr>()?.is_host_address());
    /// assert!(!AnyIpCidr::Any.is_host_address());
    /// # Ok::<(), Box<dyn std::error::Error>>(())
    /// ```
    #[inline]
    pub const fn is_host_address(&self) -> bool {
        match self.network() {
            None => false,
            Some(network) => network.is_host_address(),
        }
    }

    /// The network mask, as many set bits as the prefix length says and then zeros, or `None` for `Any`.
    ///
    /// ```
    /// # use cidr::{errors::*, more::{canon::*, *}, parsers::*, *};
    /// # use std::net::*;
    /// assert_eq!(format!("{:?}", "10.0.0.0/8".parse::<AnyIpCidr>()?.mask()), "Some(255.0.0.0)");
    /// # Ok::<(), Box<dyn std::error::Error>>(())
    /// ```
    #[inline]
    pub const fn mask(&self) -> Option<IpAddr> {
        match self.network() {
            None => None,
            Some(network) => Some(network.mask()),
        }
    }

    /// Whether the address is in the network. `Any` contains every address.
    ///
    /// No other network contains an address of the other family: an IPv4-mapped IPv6 address is in no IPv4 network.
    ///
    /// ```
    /// # use cidr::{errors::*, more::{canon::*, *}, parsers::*, *};
    /// # use std::net::*;
    /// assert!(AnyIpCidr::Any.contains(&"2001:db8::1".parse()?));
    /// let network = "0.0.0.0/0".parse::<AnyIpCidr>()?;
    /// assert!(!network.contains(&"::ffff:192.0.2.1".parse()?));
    /// # Ok::<(), Box<dyn std::error::Error>>(())
    /// ```
    #[inline]
    pub const fn contains(&self, addr: &IpAddr) -> bool {
        match (self, addr) {
            (AnyIpCidr::Any, _) => true,
            (AnyIpCidr::V4(network), IpAddr::V4(addr)) => network.contains(addr),
            (AnyIpCidr::V6(network), IpAddr::V6(addr)) => network.contains(addr),
            _ => false,
        }
    }

    /// Whether every address of the other network is in this one. `Any` contains every network and itself, and no other
    /// network contains `Any`.
    ///
    /// ```
    /// # use cidr::{errors::*, more::{canon::*, *}, parsers::*, *};
    /// # use std::net::*;
    /// assert!(AnyIpCidr::Any.contains_cidr(&"::/0".parse()?));
    /// # Ok::<(), Box<dyn std::error::Error>>(())
    /// ```
    #[inline]
    pub const fn contains_cidr(&self, other: &AnyIpCidr) -> bool {
        match (self.network(), other.network()) {
            (None, _) => true,
            (Some(_), None) => false,
            (Some(network), Some(other)) => network.contains_cidr(&other),
        }
    }

    /// Whether this is `Any`. The networks 0.0.0.0/0 and ::/0 are not.
    ///
    /// ```
    /// # use cidr::{errors::*, more::{canon::*, *}, parsers::*, *};
    /// # use std::net::*;
    /// assert!("any".parse::<AnyIpCidr>()?.is_any());
    /// assert!(!("0.0.0.0/0".parse::<AnyIpCidr>()?.is_any()));
    /// # Ok::<(), Box<dyn std::error::Error>>(())
    /// ```
    #[inline]
    pub const fn is_any(&self) -> bool {
        matches!(self, AnyIpCidr::Any)
    }

    /// Whether this is an IPv4 network, which `Any` is not.
    ///
    /// ```
    /// # use cidr::{errors::*, more::{canon::*, *}, parsers::*, *};
    /// # use std::net::*;
    /// assert!("0.0.0.0/0".parse::<AnyIpCidr>()?.is_ipv4());
    /// # Ok::<(), Box<dyn std::error::Error>>(())
    /// ```
    #[inline]
    pub const fn is_ipv4(&self) -> bool {
        matches!(self, AnyIpCidr::V4(_))
    }

    /// Whether this is an IPv6 network, which `Any` is not.
    ///
    /// ```
    /// # use cidr::{errors::*, more::{canon::*, *}, parsers::*, *};
    /// # use std::net::*;
    /// assert!("::/0".parse::<AnyIpCidr>()?.is_ipv6());
    /// # Ok::<(), Box<dyn std::error::Error>>(())
    /// ```
    #[inline]
    pub const fn is_ipv6(&self) -> bool {
        matches!(self, AnyIpCidr::V6(_))
    }

    /// The printed string, in an `ArrayString`, so that nothing is allocated: `any`, or the network without a full
    /// prefix length. It has at most 43 bytes. Parsing it gives the same value.
    ///
    /// ```
    /// # use cidr::{errors::*, more::{canon::*, *}, parsers::*, *};
    /// # use std::net::*;
    /// assert_eq!(format!("{}", AnyIpCidr::Any.to_text()), "any");
    /// # Ok::<(), Box<dyn std::error::Error>>(())
    /// ```
    #[inline]
    pub fn to_text(&self) -> ArrayString<43> {
        match self.network() {
            None => any_text(),
            Some(network) => network.to_text(),
        }
    }

    /// Appends the printed string, as `to_text` gives it, to one that the caller has. Where there is no room for the whole
    /// of it, it fails, and the string is as it was.
    ///
    /// ```
    /// # use cidr::{errors::*, more::{canon::*, *}, parsers::*, *};
    /// # use std::net::*;
    /// use cidr_support::arrayvec::ArrayString;
    /// let mut text = ArrayString::<43>::new();
    /// AnyIpCidr::Any.write_to(&mut text)?;
    /// assert_eq!(format!("{}", text), "any");
    /// # Ok::<(), Box<dyn std::error::Error>>(())
    /// ```
    ///
    /// # Errors
    ///
    /// `fmt::Error` where there is no room for the whole string, and then nothing is appended.
    #[inline]
    pub fn write_to<const CAP: usize>(&self, text: &mut ArrayString<CAP>) -> fmt::Result {
        append(text, self.to_text().as_str())
    }

    /// The network, to be printed with its prefix length also where that is full. `Any` stays `any`.
    ///
    /// ```
    /// # use cidr::{errors::*, more::{canon::*, *}, parsers::*, *};
    /// # use std::net::*;
    /// assert_eq!(format!("{}", "192.0.2.1".parse::<AnyIpCidr>()?.with_length()), "192.0.2.1/32");
    /// # Ok::<(), Box<dyn std::error::Error>>(())
    /// ```
    #[inline]
    pub const fn with_length(&self) -> WithLength<AnyIpCidr> {
        WithLength::new(*self)
    }
}

/// The string of `Any`.
#[inline]
fn any_text() -> ArrayString<43> {
    let mut text = ArrayString::new();
    text.push_str("any");
    text
}

impl WithLength<AnyIpCidr> {
    /// The printed string, `any` or the network with its prefix length: at most 43 bytes. Parsing it gives the same
    /// value.
    ///
    /// ```
    /// # use cidr::{errors::*, more::{canon::*, *}, parsers::*, *};
    /// # use std::net::*;
    /// assert_eq!(format!("{}", "::1".parse::<AnyIpCidr>()?.with_length().to_text()), "::1/128");
    /// # Ok::<(), Box<dyn std::error::Error>>(())
    /// ```
    #[inline]
    pub fn to_text(&self) -> ArrayString<43> {
        match self.get().network() {
            None => any_text(),
            Some(network) => network.with_length().to_text(),
        }
    }
}

impl From<Option<IpCidr>> for AnyIpCidr {
    #[inline]
    fn from(network: Option<IpCidr>) -> AnyIpCidr {
        match network {
            None => AnyIpCidr::Any,
            Some(network) => AnyIpCidr::from(network),
        }
    }
}

impl From<IpCidr> for AnyIpCidr {
    #[inline]
    fn from(network: IpCidr) -> AnyIpCidr {
        match network {
            IpCidr::V4(network) => AnyIpCidr::V4(network),
            IpCidr::V6(network) => AnyIpCidr::V6(network),
        }
    }
}

impl From<Ipv4Cidr> for AnyIpCidr {
    #[inline]
    fn from(network: Ipv4Cidr) -> AnyIpCidr {
        AnyIpCidr::V4(network)
    }
}

impl From<Ipv6Cidr> for AnyIpCidr {
    #[inline]
    fn from(network: Ipv6Cidr) -> AnyIpCidr {
        AnyIpCidr::V6(network)
    }
}

impl From<Ipv4Addr> for AnyIpCidr {
    #[inline]
    fn from(address: Ipv4Addr) -> AnyIpCidr {
        AnyIpCidr::V4(Ipv4Cidr::new_host(address))
    }
}

impl From<Ipv6Addr> for AnyIpCidr {
    #[inline]
    fn from(address: Ipv6Addr) -> AnyIpCidr {
        AnyIpCidr::V6(Ipv6Cidr::new_host(address))
    }
}

impl From<IpAddr> for AnyIpCidr {
    #[inline]
    fn from(address: IpAddr) -> AnyIpCidr {
        AnyIpCidr::new_host(address)
    }
}

impl From<AnyIpCidr> for Option<IpCidr> {
    #[inline]
    fn from(network: AnyIpCidr) -> Option<IpCidr> {
        network.network()
    }
}

impl fmt::Display for AnyIpCidr {
    #[inline]
    fn fmt(&self, f: &mut fmt::Formatter<'_>) -> fmt::Result {
        if f.alternate() {
            return f.write_str(self.with_length().to_text().as_str());
        }
        f.write_str(self.to_text().as_str())
    }
}

impl fmt::Display for WithLength<AnyIpCidr> {
    #[inline]
    fn fmt(&self, f: &mut fmt::Formatter<'_>) -> fmt::Result {
        f.write_str(self.to_text().as_str())
    }
}
