//! The network of either family.
//!
//! Its compact bytes stand in `compact::either_family`.

use crate::cidr::network::NetworkCalls as _;
use crate::inet::host::HostCalls as _;
use crate::inet_pair::host_pair::HostPairCalls as _;
use crate::addr::ip::IpAddr;
use crate::addr::v4::Ipv4Addr;
use crate::addr::v6::Ipv6Addr;
use crate::cidr::network::{Ipv4Cidr, Ipv6Cidr};
use crate::errors::NetworkParseError;
use crate::family::Family;
use crate::inet::combined::IpInet;
use crate::inet_iterator::InetIterator;
use crate::inet_pair::combined::IpInetPair;
use crate::text::print::append;
use crate::text::read::{cut_at_last_slash, read_length};
use crate::text::with_length::WithLength;
use crate::traits::Cidr;
use cidr_support::arrayvec::ArrayString;
use core::fmt;
use core::str::FromStr;

/// An IPv4 or an IPv6 network.
///
/// A string is parsed in the form of the family of its address, and no string is of both. The errors are those of that
/// family; where the address is of neither, the error is the `AddrParseError` of `IpAddr`. All IPv4 networks come
/// before all IPv6 networks, and those of one family are ordered by first address and then by prefix length.
///
/// ```
/// # use cidr::{errors::*, more::{canon::*, *}, parsers::*, *};
/// # use std::net::*;
/// assert_eq!(format!("{}", "2001:db8::/32".parse::<IpCidr>()?), "2001:db8::/32");
/// # Ok::<(), Box<dyn std::error::Error>>(())
/// ```
#[derive(Clone, Copy, Debug, PartialEq, Eq, PartialOrd, Ord, Hash)]
pub enum IpCidr {
    V4(Ipv4Cidr),
    V6(Ipv6Cidr),
}

impl IpCidr {
    /// The network of the first `len` bits of an address, of its family.
    ///
    /// Returns `NetworkLengthTooLongError` for a prefix length above the width, 32 or 128, and then `InvalidHostPart`
    /// for an address with a set bit after the first `len`.
    ///
    /// ```
    /// # use cidr::{errors::*, more::{canon::*, *}, parsers::*, *};
    /// # use std::net::*;
    /// assert_eq!(format!("{}", IpCidr::new("2001:db8::".parse()?, 32)?), "2001:db8::/32");
    /// assert_eq!(format!("{:?}", IpCidr::new("192.0.2.48".parse()?, 27)), "Err(host part of address was not zero)");
    /// # Ok::<(), Box<dyn std::error::Error>>(())
    /// ```
    ///
    /// # Errors
    ///
    /// `NetworkParseError`, whose variant is the first of the errors in the order that the crate's page has.
    pub const fn new(addr: IpAddr, len: u8) -> Result<IpCidr, NetworkParseError> {
        match addr {
            IpAddr::V4(addr) => match Ipv4Cidr::new(addr, len) {
                Ok(made) => Ok(IpCidr::V4(made)),
                Err(e) => Err(e),
            },
            IpAddr::V6(addr) => match Ipv6Cidr::new(addr, len) {
                Ok(made) => Ok(IpCidr::V6(made)),
                Err(e) => Err(e),
            },
        }
    }

    /// The network that has only this address, of full prefix length: /32 in IPv4 and /128 in IPv6.
    ///
    /// ```
    /// # use cidr::{errors::*, more::{canon::*, *}, parsers::*, *};
    /// # use std::net::*;
    /// assert_eq!(format!("{}", IpCidr::new_host("192.0.2.1".parse()?)), "192.0.2.1");
    /// # Ok::<(), Box<dyn std::error::Error>>(())
    /// ```
    #[inline]
    pub const fn new_host(addr: IpAddr) -> IpCidr {
        match addr {
            IpAddr::V4(addr) => IpCidr::V4(Ipv4Cidr::new_host(addr)),
            IpAddr::V6(addr) => IpCidr::V6(Ipv6Cidr::new_host(addr)),
        }
    }

    /// The first address, in which no bit after the prefix is set: in IPv4 the network address, up to /30.
    ///
    /// ```
    /// # use cidr::{errors::*, more::{canon::*, *}, parsers::*, *};
    /// # use std::net::*;
    /// assert_eq!(format!("{}", "192.0.2.48/28".parse::<IpCidr>()?.first_address()), "192.0.2.48");
    /// # Ok::<(), Box<dyn std::error::Error>>(())
    /// ```
    #[inline]
    pub const fn first_address(&self) -> IpAddr {
        match self {
            IpCidr::V4(network) => IpAddr::V4(network.first_address()),
            IpCidr::V6(network) => IpAddr::V6(network.first_address()),
        }
    }

    /// The last address, in which all bits after the prefix are set: in IPv4 the broadcast address, up to /30.
    ///
    /// ```
    /// # use cidr::{errors::*, more::{canon::*, *}, parsers::*, *};
    /// # use std::net::*;
    /// assert_eq!(format!("{}", "192.0.2.48/28".parse::<IpCidr>()?.last_address()), "192.0.2.63");
    /// # Ok::<(), Box<dyn std::error::Error>>(())
    /// ```
    #[inline]
    pub const fn last_address(&self) -> IpAddr {
        match self {
            IpCidr::V4(network) => IpAddr::V4(network.last_address()),
            IpCidr::V6(network) => IpAddr::V6(network.last_address()),
        }
    }

    /// The host at the first address, with the prefix length of the network.
    ///
    /// ```
    /// # use cidr::{errors::*, more::{canon::*, *}, parsers::*, *};
    /// # use std::net::*;
    /// assert_eq!(format!("{}", "192.0.2.48/28".parse::<IpCidr>()?.first()), "192.0.2.48/28");
    /// # Ok::<(), Box<dyn std::error::Error>>(())
    /// ```
    #[inline]
    pub const fn first(&self) -> IpInet {
        match self {
            IpCidr::V4(network) => IpInet::V4(network.first()),
            IpCidr::V6(network) => IpInet::V6(network.first()),
        }
    }

    /// The host at the last address, with the prefix length of the network.
    ///
    /// ```
    /// # use cidr::{errors::*, more::{canon::*, *}, parsers::*, *};
    /// # use std::net::*;
    /// assert_eq!(format!("{}", "192.0.2.48/28".parse::<IpCidr>()?.last()), "192.0.2.63/28");
    /// # Ok::<(), Box<dyn std::error::Error>>(())
    /// ```
    #[inline]
    pub const fn last(&self) -> IpInet {
        match self {
            IpCidr::V4(network) => IpInet::V4(network.last()),
            IpCidr::V6(network) => IpInet::V6(network.last()),
        }
    }

    /// The hosts at all addresses of the network, ascending, with its prefix length. None is left out: the network
    /// address and the broadcast address are among them.
    ///
    /// ```
    /// # use cidr::{errors::*, more::{canon::*, *}, parsers::*, *};
    /// # use std::net::*;
    /// assert_eq!(format!("{:?}", "10.0.0.0/30".parse::<IpCidr>()?.iter().next_back()), "Some(V4(10.0.0.3/30))");
    /// # Ok::<(), Box<dyn std::error::Error>>(())
    /// ```
    #[inline]
    pub const fn iter(&self) -> InetIterator<IpAddr> {
        match self {
            IpCidr::V4(network) => InetIterator::<IpAddr>::_new(IpInetPair::V4(network.ends())),
            IpCidr::V6(network) => InetIterator::<IpAddr>::_new(IpInetPair::V6(network.ends())),
        }
    }

    /// The prefix length in bits, at most 32 in IPv4 and 128 in IPv6.
    ///
    /// ```
    /// # use cidr::{errors::*, more::{canon::*, *}, parsers::*, *};
    /// # use std::net::*;
    /// assert_eq!("2001:db8::/32".parse::<IpCidr>()?.network_length(), 32);
    /// # Ok::<(), Box<dyn std::error::Error>>(())
    /// ```
    #[inline]
    pub const fn network_length(&self) -> u8 {
        match self {
            IpCidr::V4(network) => network.network_length(),
            IpCidr::V6(network) => network.network_length(),
        }
    }

    /// The family of its addresses.
    ///
    /// ```
    /// # use cidr::{errors::*, more::{canon::*, *}, parsers::*, *};
    /// # use std::net::*;
    /// assert_eq!(format!("{:?}", "2001:db8::/32".parse::<IpCidr>()?.family()), "Ipv6");
    /// # Ok::<(), Box<dyn std::error::Error>>(())
    /// ```
    #[inline]
    pub const fn family(&self) -> Family {
        match self {
            IpCidr::V4(_) => Family::Ipv4,
            IpCidr::V6(_) => Family::Ipv6,
        }
    }

    /// Whether the network has only one address, that is, whether the prefix length is full: 32 in IPv4 and 128 in
    /// IPv6.
    ///
    /// ```
    /// # use cidr::{errors::*, more::{canon::*, *}, parsers::*, *};
    /// # use std::net::*;
    /// assert!(!("2001:db8::/32".parse::<IpCidr>()?.is_host_address()));
    /// assert!("::1/128".parse::<IpCidr>()?.is_host_address());
    /// # Ok::<(), Box<dyn std::error::Error>>(())
    /// ```
    #[inline]
    pub const fn is_host_address(&self) -> bool {
        match self {
            IpCidr::V4(network) => network.is_host_address(),
            IpCidr::V6(network) => network.is_host_address(),
        }
    }

    /// The network mask: as many set bits as the prefix length says, then zeros.
    ///
    /// ```
    /// # use cidr::{errors::*, more::{canon::*, *}, parsers::*, *};
    /// # use std::net::*;
    /// assert_eq!(format!("{}", "2001:db8::/32".parse::<IpCidr>()?.mask()), "ffff:ffff::");
    /// # Ok::<(), Box<dyn std::error::Error>>(())
    /// ```
    #[inline]
    pub const fn mask(&self) -> IpAddr {
        match self {
            IpCidr::V4(network) => IpAddr::V4(network.mask()),
            IpCidr::V6(network) => IpAddr::V6(network.mask()),
        }
    }

    /// Whether the address is in the network, that is, of its family and begins with its prefix.
    ///
    /// No network contains an address of the other family: an IPv4 address is in no IPv6 network, and an IPv4-mapped
    /// IPv6 address is in no IPv4 network, as in Go's `netip.Prefix.Contains`.
    ///
    /// ```
    /// # use cidr::{errors::*, more::{canon::*, *}, parsers::*, *};
    /// # use std::net::*;
    /// let network = "::ffff:0:0/96".parse::<IpCidr>()?;
    /// assert!(network.contains(&"::ffff:192.0.2.1".parse()?));
    /// assert!(!network.contains(&"192.0.2.1".parse()?));
    /// # Ok::<(), Box<dyn std::error::Error>>(())
    /// ```
    #[inline]
    pub const fn contains(&self, addr: &IpAddr) -> bool {
        match (self, addr) {
            (IpCidr::V4(network), IpAddr::V4(addr)) => network.contains(addr),
            (IpCidr::V6(network), IpAddr::V6(addr)) => network.contains(addr),
            _ => false,
        }
    }

    /// Whether every address of the other network is in this one, which is never so for two families: ::/0 does not
    /// contain 192.0.2.0/24. Each network contains itself.
    ///
    /// ```
    /// # use cidr::{errors::*, more::{canon::*, *}, parsers::*, *};
    /// # use std::net::*;
    /// let network = "2001:db8::/32".parse::<IpCidr>()?;
    /// assert!(network.contains_cidr(&"2001:db8:1::/48".parse()?));
    /// # Ok::<(), Box<dyn std::error::Error>>(())
    /// ```
    #[inline]
    pub const fn contains_cidr(&self, other: &IpCidr) -> bool {
        // the call tells the proof that the length is within the width
        let _fits = other.network_length();
        match (self, other) {
            (IpCidr::V4(network), IpCidr::V4(other)) => network.contains_cidr(other),
            (IpCidr::V6(network), IpCidr::V6(other)) => network.contains_cidr(other),
            _ => false,
        }
    }

    /// Whether this is an IPv4 network.
    ///
    /// ```
    /// # use cidr::{errors::*, more::{canon::*, *}, parsers::*, *};
    /// # use std::net::*;
    /// assert!("192.0.2.48/28".parse::<IpCidr>()?.is_ipv4());
    /// # Ok::<(), Box<dyn std::error::Error>>(())
    /// ```
    #[inline]
    pub const fn is_ipv4(&self) -> bool {
        matches!(self, IpCidr::V4(_))
    }

    /// Whether this is an IPv6 network, also where it holds only IPv4-mapped addresses.
    ///
    /// ```
    /// # use cidr::{errors::*, more::{canon::*, *}, parsers::*, *};
    /// # use std::net::*;
    /// assert!("::ffff:0:0/96".parse::<IpCidr>()?.is_ipv6());
    /// # Ok::<(), Box<dyn std::error::Error>>(())
    /// ```
    #[inline]
    pub const fn is_ipv6(&self) -> bool {
        matches!(self, IpCidr::V6(_))
    }

    /// The printed string, without a full prefix length, in an `ArrayString`, so that nothing is allocated. It has at
    /// most 18 bytes in IPv4 and 43 in IPv6. Parsing it gives the same network.
    ///
    /// ```
    /// # use cidr::{errors::*, more::{canon::*, *}, parsers::*, *};
    /// # use std::net::*;
    /// assert_eq!(format!("{}", "192.0.2.1/32".parse::<IpCidr>()?.to_text()), "192.0.2.1");
    /// # Ok::<(), Box<dyn std::error::Error>>(())
    /// ```
    #[inline]
    pub fn to_text(&self) -> ArrayString<43> {
        match self {
            IpCidr::V4(network) => network.to_text(),
            IpCidr::V6(network) => network.to_text(),
        }
    }

    /// Appends the printed string, as `to_text` gives it, to one that the caller has. Where there is no room for the whole
    /// of it, it fails, and the string is as it was.
    ///
    /// ```
    /// # use cidr::{errors::*, more::{canon::*, *}, parsers::*, *};
    /// # use std::net::*;
    /// use cidr_support::arrayvec::ArrayString;
    /// let mut text = ArrayString::<43>::new();
    /// "192.0.2.1/32".parse::<IpCidr>()?.write_to(&mut text)?;
    /// assert_eq!(format!("{}", text), "192.0.2.1");
    /// # Ok::<(), Box<dyn std::error::Error>>(())
    /// ```
    ///
    /// # Errors
    ///
    /// `fmt::Error` where there is no room for the whole string, and then nothing is appended.
    #[inline]
    pub fn write_to<const CAP: usize>(&self, text: &mut ArrayString<CAP>) -> fmt::Result {
        append(text, self.to_text().as_str())
    }

    /// The network, to be printed with its prefix length also where that is full.
    ///
    /// ```
    /// # use cidr::{errors::*, more::{canon::*, *}, parsers::*, *};
    /// # use std::net::*;
    /// assert_eq!(format!("{}", "192.0.2.1".parse::<IpCidr>()?.with_length()), "192.0.2.1/32");
    /// # Ok::<(), Box<dyn std::error::Error>>(())
    /// ```
    #[inline]
    pub const fn with_length(&self) -> WithLength<IpCidr> {
        WithLength::new(*self)
    }
}

impl WithLength<IpCidr> {
    /// The printed string, with the prefix length also where that is full: at most 18 bytes in IPv4 and 43 in IPv6.
    /// Parsing it gives the same network.
    ///
    /// ```
    /// # use cidr::{errors::*, more::{canon::*, *}, parsers::*, *};
    /// # use std::net::*;
    /// assert_eq!(format!("{}", "::1".parse::<IpCidr>()?.with_length().to_text()), "::1/128");
    /// # Ok::<(), Box<dyn std::error::Error>>(())
    /// ```
    #[inline]
    pub fn to_text(&self) -> ArrayString<43> {
        match self.get() {
            IpCidr::V4(network) => network.with_length().to_text(),
            IpCidr::V6(network) => network.with_length().to_text(),
        }
    }
}

impl IntoIterator for IpCidr {
    type Item = IpInet;

    type IntoIter = InetIterator<IpAddr>;

    #[inline]
    fn into_iter(self) -> InetIterator<IpAddr> {
        self.iter()
    }
}

impl From<Ipv4Cidr> for IpCidr {
    #[inline]
    fn from(network: Ipv4Cidr) -> IpCidr {
        IpCidr::V4(network)
    }
}

impl From<Ipv6Cidr> for IpCidr {
    #[inline]
    fn from(network: Ipv6Cidr) -> IpCidr {
        IpCidr::V6(network)
    }
}

impl From<Ipv4Addr> for IpCidr {
    #[inline]
    fn from(address: Ipv4Addr) -> IpCidr {
        IpCidr::V4(Ipv4Cidr::new_host(address))
    }
}

impl From<Ipv6Addr> for IpCidr {
    #[inline]
    fn from(address: Ipv6Addr) -> IpCidr {
        IpCidr::V6(Ipv6Cidr::new_host(address))
    }
}

impl From<IpAddr> for IpCidr {
    #[inline]
    fn from(address: IpAddr) -> IpCidr {
        IpCidr::new_host(address)
    }
}

impl FromStr for IpCidr {
    type Err = NetworkParseError;

    #[inline]
    fn from_str(s: &str) -> Result<IpCidr, NetworkParseError> {
        let Some((front, back)) = cut_at_last_slash(s) else {
            return Ok(IpCidr::new_host(crate::addr::ip::read_ip(s)?));
        };
        let address = crate::addr::ip::read_ip(front)?;
        let len = read_length(back)?;
        IpCidr::new(address, len)
    }
}

impl fmt::Display for IpCidr {
    #[inline]
    fn fmt(&self, f: &mut fmt::Formatter<'_>) -> fmt::Result {
        if f.alternate() {
            return f.write_str(self.with_length().to_text().as_str());
        }
        f.write_str(self.to_text().as_str())
    }
}

impl fmt::Display for WithLength<IpCidr> {
    #[inline]
    fn fmt(&self, f: &mut fmt::Formatter<'_>) -> fmt::Result {
        f.write_str(self.to_text().as_str())
    }
}

impl Cidr for IpCidr {
    type Address = IpAddr;

    #[inline]
    fn new(addr: IpAddr, len: u8) -> Result<IpCidr, NetworkParseError> {
        IpCidr::new(addr, len)
    }

    #[inline]
    fn new_host(addr: IpAddr) -> IpCidr {
        IpCidr::new_host(addr)
    }

    #[inline]
    fn iter(&self) -> InetIterator<IpAddr> {
        self.iter()
    }

    #[inline]
    fn first_address(&self) -> IpAddr {
        self.first_address()
    }

    #[inline]
    fn first(&self) -> IpInet {
        self.first()
    }

    #[inline]
    fn last_address(&self) -> IpAddr {
        self.last_address()
    }

    #[inline]
    fn last(&self) -> IpInet {
        self.last()
    }

    #[inline]
    fn network_length(&self) -> u8 {
        self.network_length()
    }

    #[inline]
    fn family(&self) -> Family {
        self.family()
    }

    #[inline]
    fn is_host_address(&self) -> bool {
        self.is_host_address()
    }

    #[inline]
    fn mask(&self) -> IpAddr {
        self.mask()
    }

    #[inline]
    fn contains(&self, addr: &IpAddr) -> bool {
        self.contains(addr)
    }

}
