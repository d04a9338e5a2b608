//! The address of either family.

use crate::addr::error::AddrParseError;
use crate::addr::v4::Ipv4Addr;
use crate::addr::v6::Ipv6Addr;
use crate::cidr::combined::IpCidr;
use crate::inet::combined::IpInet;
use crate::inet_pair::combined::IpInetPair;
use crate::traits::Address;
use cidr_support::arrayvec::ArrayString;
use core::fmt;
use core::str::FromStr;

/// An IPv4 or an IPv6 address.
///
/// It parses an IPv4 string as `V4` and an IPv6 string as `V6`; no string is both. All IPv4 addresses come before all
/// IPv6 addresses, and those of one family are ordered by number. The IPv4-mapped address ::ffff:192.0.2.1 is an IPv6
/// address and not equal to 192.0.2.1.
///
/// ```
/// # use cidr::{canon::*, errors::*, parsers::*, *};
/// assert_eq!(format!("{}", "192.0.2.1".parse::<IpAddr>()?), "192.0.2.1");
/// let mapped = "::ffff:192.0.2.1".parse::<IpAddr>()?;
/// assert!(!(mapped == "192.0.2.1".parse()?));
/// # Ok::<(), Box<dyn std::error::Error>>(())
/// ```
#[derive(Clone, Copy, PartialEq, Eq, PartialOrd, Ord, Hash)]
pub enum IpAddr {
    V4(Ipv4Addr),
    V6(Ipv6Addr),
}

impl IpAddr {
    /// Whether this is an IPv4 address. An IPv4-mapped IPv6 address is none.
    ///
    /// ```
    /// # use cidr::{canon::*, errors::*, parsers::*, *};
    /// assert!("192.0.2.1".parse::<IpAddr>()?.is_ipv4());
    /// assert!(!("::ffff:192.0.2.1".parse::<IpAddr>()?.is_ipv4()));
    /// # Ok::<(), Box<dyn std::error::Error>>(())
    /// ```
    #[inline]
    pub fn is_ipv4(&self) -> bool {
        matches!(self, IpAddr::V4(_))
    }

    /// Whether this is an IPv6 address, IPv4-mapped or not.
    ///
    /// ```
    /// # use cidr::{canon::*, errors::*, parsers::*, *};
    /// assert!("2001:db8::1".parse::<IpAddr>()?.is_ipv6());
    /// # Ok::<(), Box<dyn std::error::Error>>(())
    /// ```
    #[inline]
    pub fn is_ipv6(&self) -> bool {
        matches!(self, IpAddr::V6(_))
    }

    /// The printed string, as the address of its family prints, in an `ArrayString`, so that nothing is allocated: at
    /// most 15 bytes in IPv4 and 39 in IPv6. Parsing it gives the same address.
    ///
    /// ```
    /// # use cidr::{canon::*, errors::*, parsers::*, *};
    /// assert_eq!(format!("{}", "2001:DB8::1".parse::<IpAddr>()?.to_text()), "2001:db8::1");
    /// # Ok::<(), Box<dyn std::error::Error>>(())
    /// ```
    #[inline]
    pub fn to_text(&self) -> ArrayString<39> {
        match self {
            IpAddr::V4(address) => address.to_text(),
            IpAddr::V6(address) => address.to_text(),
        }
    }

    /// Appends the printed string, as `to_text` gives it, to one that the caller has. Where there is no room for the whole
    /// of it, it fails, and the string is as it was.
    ///
    /// ```
    /// # use cidr::{canon::*, errors::*, parsers::*, *};
    /// use cidr_support::arrayvec::ArrayString;
    /// let mut text = ArrayString::<39>::new();
    /// "2001:DB8::1".parse::<IpAddr>()?.write_to(&mut text)?;
    /// assert_eq!(format!("{}", text), "2001:db8::1");
    /// # Ok::<(), Box<dyn std::error::Error>>(())
    /// ```
    ///
    /// # Errors
    ///
    /// `fmt::Error` where there is no room for the whole string, and then nothing is appended.
    #[inline]
    pub fn write_to<const CAP: usize>(&self, text: &mut ArrayString<CAP>) -> fmt::Result {
        match self {
            IpAddr::V4(address) => address.write_to(text),
            IpAddr::V6(address) => address.write_to(text),
        }
    }
}

impl From<Ipv4Addr> for IpAddr {
    #[inline]
    fn from(address: Ipv4Addr) -> IpAddr {
        IpAddr::V4(address)
    }
}

impl From<Ipv6Addr> for IpAddr {
    #[inline]
    fn from(address: Ipv6Addr) -> IpAddr {
        IpAddr::V6(address)
    }
}

impl FromStr for IpAddr {
    type Err = AddrParseError;

    #[inline]
    fn from_str(s: &str) -> Result<IpAddr, AddrParseError> {
        match s.parse::<Ipv4Addr>() {
            Ok(address) => Ok(IpAddr::V4(address)),
            Err(_) => match s.parse::<Ipv6Addr>() {
                Ok(address) => Ok(IpAddr::V6(address)),
                Err(_) => Err(AddrParseError::ip()),
            },
        }
    }
}

impl fmt::Display for IpAddr {
    #[inline]
    fn fmt(&self, f: &mut fmt::Formatter<'_>) -> fmt::Result {
        f.write_str(self.to_text().as_str())
    }
}

impl fmt::Debug for IpAddr {
    #[inline]
    fn fmt(&self, f: &mut fmt::Formatter<'_>) -> fmt::Result {
        fmt::Display::fmt(self, f)
    }
}

impl Address for IpAddr {
    type Inet = IpInet;

    type Cidr = IpCidr;

    type InetPair = IpInetPair;

}
