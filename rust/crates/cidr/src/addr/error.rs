//! The error of an address string.

use crate::family::Family;
use cidr_support::arrayvec::ArrayString;
use core::error::Error;
use core::fmt;

/// The string is no address of the type that was parsed: `Ipv4Addr`, `Ipv6Addr` or `IpAddr`.
///
/// Its message, also under `{:?}`, names the family: `invalid IPv4 address syntax`, `invalid IPv6 address syntax` or
/// `invalid IP address syntax`. Two such errors are equal if the same type was parsed; the string is not kept.
///
/// ```
/// # use cidr::{canon::*, errors::*, parsers::*, *};
/// assert_eq!(format!("{:?}", "192.0.2".parse::<Ipv4Addr>()), "Err(invalid IPv4 address syntax)");
/// assert_eq!(format!("{:?}", "192.0.2".parse::<IpAddr>()), "Err(invalid IP address syntax)");
/// # Ok::<(), Box<dyn std::error::Error>>(())
/// ```
#[derive(Clone, PartialEq, Eq)]
pub struct AddrParseError {
    /// The family that was parsed; `None` where either was.
    family: Option<Family>,
}

impl AddrParseError {
    #[inline]
    pub(crate) fn ipv4() -> AddrParseError {
        AddrParseError {
            family: Some(Family::Ipv4),
        }
    }

    #[inline]
    pub(crate) fn ipv6() -> AddrParseError {
        AddrParseError {
            family: Some(Family::Ipv6),
        }
    }

    #[inline]
    pub(crate) fn ip() -> AddrParseError {
        AddrParseError { family: None }
    }

    /// The message, as it is printed, in an `ArrayString`, so that nothing is allocated. It has at most 27 bytes.
    ///
    /// ```
    /// # use cidr::{canon::*, errors::*, parsers::*, *};
    /// let parsed = "::1%1".parse::<Ipv6Addr>();
    /// assert_eq!(format!("{:?}", parsed.map_err(|e| e.to_text())), "Err(\"invalid IPv6 address syntax\")");
    /// # Ok::<(), Box<dyn std::error::Error>>(())
    /// ```
    #[inline]
    pub fn to_text(&self) -> ArrayString<27> {
        let mut text = ArrayString::new();
        text.push_str(match self.family {
            Some(Family::Ipv4) => "invalid IPv4 address syntax",
            Some(Family::Ipv6) => "invalid IPv6 address syntax",
            None => "invalid IP address syntax",
        });
        text
    }
}

impl fmt::Display for AddrParseError {
    #[inline]
    fn fmt(&self, f: &mut fmt::Formatter<'_>) -> fmt::Result {
        f.write_str(self.to_text().as_str())
    }
}

impl fmt::Debug for AddrParseError {
    #[inline]
    fn fmt(&self, f: &mut fmt::Formatter<'_>) -> fmt::Result {
        fmt::Display::fmt(self, f)
    }
}

impl Error for AddrParseError {}
