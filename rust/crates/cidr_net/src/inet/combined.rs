//! The host of either family.
//!
//! Its compact bytes stand in `compact::either_family`.

use crate::cidr::network::NetworkCalls as _;
use crate::inet::host::HostCalls as _;
use crate::inet_pair::host_pair::HostPairCalls as _;
use crate::addr::ip::IpAddr;
use crate::addr::v4::Ipv4Addr;
use crate::addr::v6::Ipv6Addr;
use crate::cidr::combined::IpCidr;
use crate::errors::{NetworkLengthTooLongError, NetworkParseError};
use crate::family::Family;
use crate::inet::host::{Ipv4Inet, Ipv6Inet};
use crate::text::print::append;
use crate::text::read::{cut_at_last_slash, read_length};
use crate::text::with_length::WithLength;
use crate::traits::Inet;
use cidr_support::arrayvec::ArrayString;
use core::fmt;
use core::ops::{Add, Sub};
use core::str::FromStr;

/// An IPv4 or an IPv6 host: an address in its network.
///
/// All IPv4 hosts come before all IPv6 hosts, and those of one family are ordered by address and then by prefix length.
/// A string is parsed as that of `IpCidr` is, but that a set bit after the prefix is no error. Steps stay in the
/// network.
///
/// ```
/// # use cidr::{errors::*, more::{canon::*, *}, parsers::*, *};
/// # use std::net::*;
/// assert_eq!(format!("{}", "2001:db8::5/32".parse::<IpInet>()?), "2001:db8::5/32");
/// # Ok::<(), Box<dyn std::error::Error>>(())
/// ```
#[derive(Clone, Copy, Debug, PartialEq, Eq, PartialOrd, Ord, Hash)]
pub enum IpInet {
    V4(Ipv4Inet),
    V6(Ipv6Inet),
}

impl IpInet {
    /// The host of an address in the network of its first `len` bits, of its family.
    ///
    /// Returns an error only for a prefix length above the width, 32 or 128.
    ///
    /// ```
    /// # use cidr::{errors::*, more::{canon::*, *}, parsers::*, *};
    /// # use std::net::*;
    /// assert_eq!(format!("{}", IpInet::new("2001:db8::5".parse()?, 32)?), "2001:db8::5/32");
    /// assert!(IpInet::new("192.0.2.50".parse()?, 33).is_err());
    /// # Ok::<(), Box<dyn std::error::Error>>(())
    /// ```
    ///
    /// # Errors
    ///
    /// `NetworkLengthTooLongError` for a prefix length above the width, 32 or 128.
    pub const fn new(addr: IpAddr, len: u8) -> Result<IpInet, NetworkLengthTooLongError> {
        match addr {
            IpAddr::V4(addr) => match Ipv4Inet::new(addr, len) {
                Ok(made) => Ok(IpInet::V4(made)),
                Err(e) => Err(e),
            },
            IpAddr::V6(addr) => match Ipv6Inet::new(addr, len) {
                Ok(made) => Ok(IpInet::V6(made)),
                Err(e) => Err(e),
            },
        }
    }

    /// The host of full prefix length, whose network has only this address: /32 in IPv4 and /128 in IPv6.
    ///
    /// ```
    /// # use cidr::{errors::*, more::{canon::*, *}, parsers::*, *};
    /// # use std::net::*;
    /// assert_eq!(format!("{}", IpInet::new_host("192.0.2.1".parse()?)), "192.0.2.1");
    /// # Ok::<(), Box<dyn std::error::Error>>(())
    /// ```
    #[inline]
    pub const fn new_host(addr: IpAddr) -> IpInet {
        match addr {
            IpAddr::V4(addr) => IpInet::V4(Ipv4Inet::new_host(addr)),
            IpAddr::V6(addr) => IpInet::V6(Ipv6Inet::new_host(addr)),
        }
    }

    /// Steps to the next address of the network. From the last one it wraps to the first, and returns true.
    ///
    /// ```
    /// # use cidr::{errors::*, more::{canon::*, *}, parsers::*, *};
    /// # use std::net::*;
    /// let mut host = "192.0.2.63/28".parse::<IpInet>()?;
    /// assert!(host.increment());
    /// assert_eq!(format!("{}", host), "192.0.2.48/28");
    /// # Ok::<(), Box<dyn std::error::Error>>(())
    /// ```
    #[inline]
    pub fn increment(&mut self) -> bool {
        match self {
            IpInet::V4(host) => host.increment(),
            IpInet::V6(host) => host.increment(),
        }
    }

    /// Steps to the previous address of the network. From the first one it wraps to the last, and returns true.
    ///
    /// ```
    /// # use cidr::{errors::*, more::{canon::*, *}, parsers::*, *};
    /// # use std::net::*;
    /// let mut host = "2001:db8::/112".parse::<IpInet>()?;
    /// assert!(host.decrement());
    /// assert_eq!(format!("{}", host), "2001:db8::ffff/112");
    /// # Ok::<(), Box<dyn std::error::Error>>(())
    /// ```
    #[inline]
    pub fn decrement(&mut self) -> bool {
        match self {
            IpInet::V4(host) => host.decrement(),
            IpInet::V6(host) => host.decrement(),
        }
    }

    /// The host at the next address of the network, or `None` at the last one. It takes and returns a value, and is not
    /// `Iterator::next`.
    ///
    /// ```
    /// # use cidr::{errors::*, more::{canon::*, *}, parsers::*, *};
    /// # use std::net::*;
    /// assert_eq!(format!("{:?}", "192.0.2.62/28".parse::<IpInet>()?.next()), "Some(V4(192.0.2.63/28))");
    /// assert_eq!(format!("{:?}", "192.0.2.63/28".parse::<IpInet>()?.next()), "None");
    /// # Ok::<(), Box<dyn std::error::Error>>(())
    /// ```
    pub const fn next(self) -> Option<IpInet> {
        match self {
            IpInet::V4(host) => match host.next() {
                Some(made) => Some(IpInet::V4(made)),
                None => None,
            },
            IpInet::V6(host) => match host.next() {
                Some(made) => Some(IpInet::V6(made)),
                None => None,
            },
        }
    }

    /// The host at the previous address of the network, or `None` at the first one.
    ///
    /// ```
    /// # use cidr::{errors::*, more::{canon::*, *}, parsers::*, *};
    /// # use std::net::*;
    /// assert_eq!(format!("{:?}", "2001:db8::5/32".parse::<IpInet>()?.previous()), "Some(V6(2001:db8::4/32))");
    /// # Ok::<(), Box<dyn std::error::Error>>(())
    /// ```
    pub const fn previous(self) -> Option<IpInet> {
        match self {
            IpInet::V4(host) => match host.previous() {
                Some(made) => Some(IpInet::V4(made)),
                None => None,
            },
            IpInet::V6(host) => match host.previous() {
                Some(made) => Some(IpInet::V6(made)),
                None => None,
            },
        }
    }

    /// The host `step` addresses further in the network, and whether it wrapped from the last address to the first.
    ///
    /// Any step is exact, also one above the number of addresses, and takes constant time. Where it does not wrap, `+`
    /// returns the same host.
    ///
    /// ```
    /// # use cidr::{errors::*, more::{canon::*, *}, parsers::*, *};
    /// # use std::net::*;
    /// let host = "192.0.2.50/28".parse::<IpInet>()?;
    /// assert_eq!(format!("{:?}", host.overflowing_add(14)), "(V4(192.0.2.48/28), true)");
    /// # Ok::<(), Box<dyn std::error::Error>>(())
    /// ```
    pub const fn overflowing_add(self, step: u128) -> (IpInet, bool) {
        match self {
            IpInet::V4(host) => {
                let (stepped, wraps) = host.overflowing_add(step);
                (IpInet::V4(stepped), wraps)
            }
            IpInet::V6(host) => {
                let (stepped, wraps) = host.overflowing_add(step);
                (IpInet::V6(stepped), wraps)
            }
        }
    }

    /// The host `step` addresses back in the network, and whether it wrapped from the first address to the last.
    ///
    /// Any step is exact, also one above the number of addresses, and takes constant time. Where it does not wrap, `-`
    /// returns the same host.
    ///
    /// ```
    /// # use cidr::{errors::*, more::{canon::*, *}, parsers::*, *};
    /// # use std::net::*;
    /// assert_eq!(format!("{:?}", "10.0.0.7/29".parse::<IpInet>()?.overflowing_sub(8)), "(V4(10.0.0.7/29), true)");
    /// # Ok::<(), Box<dyn std::error::Error>>(())
    /// ```
    pub const fn overflowing_sub(self, step: u128) -> (IpInet, bool) {
        match self {
            IpInet::V4(host) => {
                let (stepped, wraps) = host.overflowing_sub(step);
                (IpInet::V4(stepped), wraps)
            }
            IpInet::V6(host) => {
                let (stepped, wraps) = host.overflowing_sub(step);
                (IpInet::V6(stepped), wraps)
            }
        }
    }

    /// The network that the host is in: the bits after the prefix are unset.
    ///
    /// ```
    /// # use cidr::{errors::*, more::{canon::*, *}, parsers::*, *};
    /// # use std::net::*;
    /// assert_eq!(format!("{}", "2001:db8::5/32".parse::<IpInet>()?.network()), "2001:db8::/32");
    /// # Ok::<(), Box<dyn std::error::Error>>(())
    /// ```
    #[inline]
    pub const fn network(&self) -> IpCidr {
        match self {
            IpInet::V4(host) => IpCidr::V4(host.network()),
            IpInet::V6(host) => IpCidr::V6(host.network()),
        }
    }

    /// The address, without the prefix length.
    ///
    /// ```
    /// # use cidr::{errors::*, more::{canon::*, *}, parsers::*, *};
    /// # use std::net::*;
    /// assert_eq!(format!("{}", "2001:db8::5/32".parse::<IpInet>()?.address()), "2001:db8::5");
    /// # Ok::<(), Box<dyn std::error::Error>>(())
    /// ```
    #[inline]
    pub const fn address(&self) -> IpAddr {
        match self {
            IpInet::V4(host) => IpAddr::V4(host.address()),
            IpInet::V6(host) => IpAddr::V6(host.address()),
        }
    }

    /// The first address of the network, in which no bit after the prefix is set: in IPv4 the network address, up to
    /// /30.
    ///
    /// ```
    /// # use cidr::{errors::*, more::{canon::*, *}, parsers::*, *};
    /// # use std::net::*;
    /// assert_eq!(format!("{}", "192.0.2.50/28".parse::<IpInet>()?.first_address()), "192.0.2.48");
    /// # Ok::<(), Box<dyn std::error::Error>>(())
    /// ```
    #[inline]
    pub const fn first_address(&self) -> IpAddr {
        match self {
            IpInet::V4(host) => IpAddr::V4(host.first_address()),
            IpInet::V6(host) => IpAddr::V6(host.first_address()),
        }
    }

    /// The last address of the network, in which all bits after the prefix are set: in IPv4 the broadcast address, up
    /// to /30.
    ///
    /// ```
    /// # use cidr::{errors::*, more::{canon::*, *}, parsers::*, *};
    /// # use std::net::*;
    /// assert_eq!(format!("{}", "192.0.2.50/28".parse::<IpInet>()?.last_address()), "192.0.2.63");
    /// # Ok::<(), Box<dyn std::error::Error>>(())
    /// ```
    #[inline]
    pub const fn last_address(&self) -> IpAddr {
        match self {
            IpInet::V4(host) => IpAddr::V4(host.last_address()),
            IpInet::V6(host) => IpAddr::V6(host.last_address()),
        }
    }

    /// The host at the first address of the network, with the same prefix length.
    ///
    /// ```
    /// # use cidr::{errors::*, more::{canon::*, *}, parsers::*, *};
    /// # use std::net::*;
    /// assert_eq!(format!("{}", "10.4.3.2/8".parse::<IpInet>()?.first()), "10.0.0.0/8");
    /// # Ok::<(), Box<dyn std::error::Error>>(())
    /// ```
    #[inline]
    pub const fn first(&self) -> IpInet {
        match self {
            IpInet::V4(host) => IpInet::V4(host.first()),
            IpInet::V6(host) => IpInet::V6(host.first()),
        }
    }

    /// The host at the last address of the network, with the same prefix length.
    ///
    /// ```
    /// # use cidr::{errors::*, more::{canon::*, *}, parsers::*, *};
    /// # use std::net::*;
    /// assert_eq!(format!("{}", "10.4.3.2/8".parse::<IpInet>()?.last()), "10.255.255.255/8");
    /// # Ok::<(), Box<dyn std::error::Error>>(())
    /// ```
    #[inline]
    pub const fn last(&self) -> IpInet {
        match self {
            IpInet::V4(host) => IpInet::V4(host.last()),
            IpInet::V6(host) => IpInet::V6(host.last()),
        }
    }

    /// The prefix length in bits, at most 32 in IPv4 and 128 in IPv6.
    ///
    /// ```
    /// # use cidr::{errors::*, more::{canon::*, *}, parsers::*, *};
    /// # use std::net::*;
    /// assert_eq!("2001:db8::5/32".parse::<IpInet>()?.network_length(), 32);
    /// # Ok::<(), Box<dyn std::error::Error>>(())
    /// ```
    #[inline]
    pub const fn network_length(&self) -> u8 {
        match self {
            IpInet::V4(host) => host.network_length(),
            IpInet::V6(host) => host.network_length(),
        }
    }

    /// The family of the address.
    ///
    /// ```
    /// # use cidr::{errors::*, more::{canon::*, *}, parsers::*, *};
    /// # use std::net::*;
    /// assert_eq!(format!("{:?}", "2001:db8::5/32".parse::<IpInet>()?.family()), "Ipv6");
    /// # Ok::<(), Box<dyn std::error::Error>>(())
    /// ```
    #[inline]
    pub const fn family(&self) -> Family {
        match self {
            IpInet::V4(_) => Family::Ipv4,
            IpInet::V6(_) => Family::Ipv6,
        }
    }

    /// Whether the network of the host has only one address, that is, whether the prefix length is full: 32 in IPv4 and
    /// 128 in IPv6.
    ///
    /// ```
    /// # use cidr::{errors::*, more::{canon::*, *}, parsers::*, *};
    /// # use std::net::*;
    /// assert!("192.0.2.50".parse::<IpInet>()?.is_host_address());
    /// # Ok::<(), Box<dyn std::error::Error>>(())
    /// ```
    #[inline]
    pub const fn is_host_address(&self) -> bool {
        match self {
            IpInet::V4(host) => host.is_host_address(),
            IpInet::V6(host) => host.is_host_address(),
        }
    }

    /// The network mask: as many set bits as the prefix length says, then zeros.
    ///
    /// ```
    /// # use cidr::{errors::*, more::{canon::*, *}, parsers::*, *};
    /// # use std::net::*;
    /// assert_eq!(format!("{}", "192.0.2.50/28".parse::<IpInet>()?.mask()), "255.255.255.240");
    /// # Ok::<(), Box<dyn std::error::Error>>(())
    /// ```
    #[inline]
    pub const fn mask(&self) -> IpAddr {
        match self {
            IpInet::V4(host) => IpAddr::V4(host.mask()),
            IpInet::V6(host) => IpAddr::V6(host.mask()),
        }
    }

    /// Whether the address is in the network of the host, that is, of its family and begins with its prefix.
    ///
    /// No network contains an address of the other family: an IPv4-mapped IPv6 address is in no IPv4 network.
    ///
    /// ```
    /// # use cidr::{errors::*, more::{canon::*, *}, parsers::*, *};
    /// # use std::net::*;
    /// let host = "192.0.2.50/28".parse::<IpInet>()?;
    /// assert!(host.contains(&"192.0.2.63".parse()?));
    /// assert!(!host.contains(&"::ffff:192.0.2.63".parse()?));
    /// # Ok::<(), Box<dyn std::error::Error>>(())
    /// ```
    #[inline]
    pub const fn contains(&self, addr: &IpAddr) -> bool {
        match (self, addr) {
            (IpInet::V4(host), IpAddr::V4(addr)) => host.contains(addr),
            (IpInet::V6(host), IpAddr::V6(addr)) => host.contains(addr),
            _ => false,
        }
    }

    /// Whether this is an IPv4 host.
    ///
    /// ```
    /// # use cidr::{errors::*, more::{canon::*, *}, parsers::*, *};
    /// # use std::net::*;
    /// assert!("192.0.2.50/28".parse::<IpInet>()?.is_ipv4());
    /// # Ok::<(), Box<dyn std::error::Error>>(())
    /// ```
    #[inline]
    pub const fn is_ipv4(&self) -> bool {
        matches!(self, IpInet::V4(_))
    }

    /// Whether this is an IPv6 host, also where its address is IPv4-mapped.
    ///
    /// ```
    /// # use cidr::{errors::*, more::{canon::*, *}, parsers::*, *};
    /// # use std::net::*;
    /// assert!("::ffff:192.0.2.50/124".parse::<IpInet>()?.is_ipv6());
    /// # Ok::<(), Box<dyn std::error::Error>>(())
    /// ```
    #[inline]
    pub const fn is_ipv6(&self) -> bool {
        matches!(self, IpInet::V6(_))
    }

    /// The printed string, with all bits of the address and without a full prefix length, in an `ArrayString`, so that
    /// nothing is allocated. It has at most 18 bytes in IPv4 and 43 in IPv6. Parsing it gives the same host.
    ///
    /// ```
    /// # use cidr::{errors::*, more::{canon::*, *}, parsers::*, *};
    /// # use std::net::*;
    /// assert_eq!(format!("{}", "10.4.3.2/8".parse::<IpInet>()?.to_text()), "10.4.3.2/8");
    /// # Ok::<(), Box<dyn std::error::Error>>(())
    /// ```
    #[inline]
    pub fn to_text(&self) -> ArrayString<43> {
        match self {
            IpInet::V4(host) => host.to_text(),
            IpInet::V6(host) => host.to_text(),
        }
    }

    /// Appends the printed string, as `to_text` gives it, to one that the caller has. Where there is no room for the whole
    /// of it, it fails, and the string is as it was.
    ///
    /// ```
    /// # use cidr::{errors::*, more::{canon::*, *}, parsers::*, *};
    /// # use std::net::*;
    /// use cidr_support::arrayvec::ArrayString;
    /// let mut text = ArrayString::<43>::new();
    /// "10.4.3.2/8".parse::<IpInet>()?.write_to(&mut text)?;
    /// assert_eq!(format!("{}", text), "10.4.3.2/8");
    /// # Ok::<(), Box<dyn std::error::Error>>(())
    /// ```
    ///
    /// # Errors
    ///
    /// `fmt::Error` where there is no room for the whole string, and then nothing is appended.
    #[inline]
    pub fn write_to<const CAP: usize>(&self, text: &mut ArrayString<CAP>) -> fmt::Result {
        append(text, self.to_text().as_str())
    }

    /// The host, to be printed with its prefix length also where that is full.
    ///
    /// ```
    /// # use cidr::{errors::*, more::{canon::*, *}, parsers::*, *};
    /// # use std::net::*;
    /// assert_eq!(format!("{}", "10.0.0.1".parse::<IpInet>()?.with_length()), "10.0.0.1/32");
    /// # Ok::<(), Box<dyn std::error::Error>>(())
    /// ```
    #[inline]
    pub const fn with_length(&self) -> WithLength<IpInet> {
        WithLength::new(*self)
    }
}

impl WithLength<IpInet> {
    /// The printed string, with the prefix length also where that is full: at most 18 bytes in IPv4 and 43 in IPv6.
    /// Parsing it gives the same host.
    ///
    /// ```
    /// # use cidr::{errors::*, more::{canon::*, *}, parsers::*, *};
    /// # use std::net::*;
    /// assert_eq!(format!("{}", "::1".parse::<IpInet>()?.with_length().to_text()), "::1/128");
    /// # Ok::<(), Box<dyn std::error::Error>>(())
    /// ```
    #[inline]
    pub fn to_text(&self) -> ArrayString<43> {
        match self.get() {
            IpInet::V4(host) => host.with_length().to_text(),
            IpInet::V6(host) => host.with_length().to_text(),
        }
    }
}

impl From<Ipv4Inet> for IpInet {
    #[inline]
    fn from(host: Ipv4Inet) -> IpInet {
        IpInet::V4(host)
    }
}

impl From<Ipv6Inet> for IpInet {
    #[inline]
    fn from(host: Ipv6Inet) -> IpInet {
        IpInet::V6(host)
    }
}

impl From<Ipv4Addr> for IpInet {
    #[inline]
    fn from(address: Ipv4Addr) -> IpInet {
        IpInet::V4(Ipv4Inet::new_host(address))
    }
}

impl From<Ipv6Addr> for IpInet {
    #[inline]
    fn from(address: Ipv6Addr) -> IpInet {
        IpInet::V6(Ipv6Inet::new_host(address))
    }
}

impl From<IpAddr> for IpInet {
    #[inline]
    fn from(address: IpAddr) -> IpInet {
        IpInet::new_host(address)
    }
}

impl FromStr for IpInet {
    type Err = NetworkParseError;

    #[inline]
    fn from_str(s: &str) -> Result<IpInet, NetworkParseError> {
        let Some((front, back)) = cut_at_last_slash(s) else {
            return Ok(IpInet::new_host(crate::addr::ip::read_ip(s)?));
        };
        let address = crate::addr::ip::read_ip(front)?;
        let len = read_length(back)?;
        Ok(IpInet::new(address, len)?)
    }
}

impl fmt::Display for IpInet {
    #[inline]
    fn fmt(&self, f: &mut fmt::Formatter<'_>) -> fmt::Result {
        if f.alternate() {
            return f.write_str(self.with_length().to_text().as_str());
        }
        f.write_str(self.to_text().as_str())
    }
}

impl fmt::Display for WithLength<IpInet> {
    #[inline]
    fn fmt(&self, f: &mut fmt::Formatter<'_>) -> fmt::Result {
        f.write_str(self.to_text().as_str())
    }
}

/// The host `step` addresses further in the network, as `overflowing_add` returns it. The caller has to ensure that the
/// step does not wrap; `overflowing_add` and `next` tell whether it does.
///
/// # Panics
///
/// Where the condition on the caller does not hold.
impl Add<u128> for IpInet {
    type Output = IpInet;

    #[inline]
    fn add(self, step: u128) -> IpInet {
        match self {
            IpInet::V4(host) => IpInet::V4(host + step),
            IpInet::V6(host) => IpInet::V6(host + step),
        }
    }
}

/// The host `step` addresses back in the network, as `overflowing_sub` returns it. The caller has to ensure that the
/// step does not wrap; `overflowing_sub` and `previous` tell whether it does.
///
/// # Panics
///
/// Where the condition on the caller does not hold.
impl Sub<u128> for IpInet {
    type Output = IpInet;

    #[inline]
    fn sub(self, step: u128) -> IpInet {
        match self {
            IpInet::V4(host) => IpInet::V4(host - step),
            IpInet::V6(host) => IpInet::V6(host - step),
        }
    }
}

impl Inet for IpInet {
    type Address = IpAddr;

    #[inline]
    fn new(addr: IpAddr, len: u8) -> Result<IpInet, NetworkLengthTooLongError> {
        IpInet::new(addr, len)
    }

    #[inline]
    fn new_host(addr: IpAddr) -> IpInet {
        IpInet::new_host(addr)
    }

    #[inline]
    fn increment(&mut self) -> bool {
        self.increment()
    }

    #[inline]
    fn decrement(&mut self) -> bool {
        self.decrement()
    }

    #[inline]
    fn next(self) -> Option<IpInet> {
        self.next()
    }

    #[inline]
    fn previous(self) -> Option<IpInet> {
        self.previous()
    }

    #[inline]
    fn overflowing_add(self, step: u128) -> (IpInet, bool) {
        self.overflowing_add(step)
    }

    #[inline]
    fn overflowing_sub(self, step: u128) -> (IpInet, bool) {
        self.overflowing_sub(step)
    }

    #[inline]
    fn network(&self) -> IpCidr {
        self.network()
    }

    #[inline]
    fn address(&self) -> IpAddr {
        self.address()
    }

    #[inline]
    fn first_address(&self) -> IpAddr {
        self.first_address()
    }

    #[inline]
    fn first(&self) -> IpInet {
        self.first()
    }

    #[inline]
    fn last_address(&self) -> IpAddr {
        self.last_address()
    }

    #[inline]
    fn last(&self) -> IpInet {
        self.last()
    }

    #[inline]
    fn network_length(&self) -> u8 {
        self.network_length()
    }

    #[inline]
    fn family(&self) -> Family {
        self.family()
    }

    #[inline]
    fn is_host_address(&self) -> bool {
        self.is_host_address()
    }

    #[inline]
    fn mask(&self) -> IpAddr {
        self.mask()
    }

    #[inline]
    fn contains(&self, addr: &IpAddr) -> bool {
        self.contains(addr)
    }

}
