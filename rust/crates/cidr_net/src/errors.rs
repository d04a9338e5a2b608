//! The errors of networks, hosts and pairs, of their strings, and of compact and prefix bytes.

use crate::cidr::network::NetworkCalls as _;
use crate::inet::host::HostCalls as _;
use crate::inet_pair::host_pair::HostPairCalls as _;
use crate::addr::decimal::decimal_text;
use crate::addr::error::AddrParseError;
use crate::family::Family;
use cidr_support::arrayvec::ArrayString;
use core::error::Error;
use core::fmt;

#[doc(no_inline)]
pub use core::num::ParseIntError;

/// The prefix length is above the width of the family, 32 or 128.
///
/// Its message names both, also under `{:?}`: `Network length 33 is too long for Ipv4 (maximum: 32)`.
///
/// ```
/// # use cidr::{errors::*, more::{canon::*, *}, parsers::*, *};
/// # use std::net::*;
/// let made = Ipv4Inet::new(Ipv4Addr::new(10, 4, 3, 2), 33);
/// assert_eq!(format!("{:?}", made), "Err(Network length 33 is too long for Ipv4 (maximum: 32))");
/// # Ok::<(), Box<dyn std::error::Error>>(())
/// ```
#[derive(Clone, PartialEq, Eq, Hash)]
pub struct NetworkLengthTooLongError {
    len: usize,
    family: Family,
}

impl NetworkLengthTooLongError {
    #[inline]
    pub(crate) const fn new(len: usize, family: Family) -> NetworkLengthTooLongError {
        NetworkLengthTooLongError { len, family }
    }

    /// The message, with room for the 20 digits that a `usize` may have.
    #[inline]
    fn to_text(&self) -> ArrayString<71> {
        let mut text = ArrayString::new();
        text.push_str("Network length ");
        text.push_str(decimal_text(self.len).as_str());
        text.push_str(limit_text(self.family));
        text
    }
}

/// What stands after the length.
#[inline]
fn limit_text(family: Family) -> &'static str {
    match family {
        Family::Ipv4 => " is too long for Ipv4 (maximum: 32)",
        Family::Ipv6 => " is too long for Ipv6 (maximum: 128)",
    }
}

impl fmt::Display for NetworkLengthTooLongError {
    #[inline]
    fn fmt(&self, f: &mut fmt::Formatter<'_>) -> fmt::Result {
        f.write_str(self.to_text().as_str())
    }
}

impl fmt::Debug for NetworkLengthTooLongError {
    #[inline]
    fn fmt(&self, f: &mut fmt::Formatter<'_>) -> fmt::Result {
        fmt::Display::fmt(self, f)
    }
}

impl Error for NetworkLengthTooLongError {
    #[inline]
    fn description(&self) -> &str {
        "network length too long"
    }
}

/// Why a network cannot be made, or a string is not parsed as a network or a host.
///
/// Parsing returns the first of these errors: the address, the string of the prefix length, a prefix length above the
/// width, a set bit after the prefix. Parsing a host never returns the last.
///
/// ```
/// # use cidr::{errors::*, more::{canon::*, *}, parsers::*, *};
/// # use std::net::*;
/// assert_eq!(format!("{:?}", "10.0.0.1/8".parse::<Ipv4Cidr>()), "Err(host part of address was not zero)");
/// assert_eq!(format!("{:?}", "10.0.0.1".parse::<Ipv4Cidr>()), "Ok(10.0.0.1/32)");
/// # Ok::<(), Box<dyn std::error::Error>>(())
/// ```
#[derive(Clone, PartialEq)]
pub enum NetworkParseError {
    /// A bit after the prefix is set: `host part of address was not zero`.
    InvalidHostPart,
    /// What precedes the last slash, or the whole string where there is no slash, is no address.
    AddrParseError(AddrParseError),
    /// What follows the last slash is no prefix length.
    NetworkLengthParseError(ParseIntError),
    /// The prefix length is above the width of the family.
    NetworkLengthTooLongError(NetworkLengthTooLongError),
}

impl fmt::Display for NetworkParseError {
    fn fmt(&self, f: &mut fmt::Formatter<'_>) -> fmt::Result {
        match self {
            NetworkParseError::InvalidHostPart => f.write_str("host part of address was not zero"),
            NetworkParseError::AddrParseError(e) => {
                write!(f, "couldn't parse address in network: {e}")
            }
            NetworkParseError::NetworkLengthParseError(e) => {
                write!(f, "couldn't parse length in network: {e}")
            }
            NetworkParseError::NetworkLengthTooLongError(e) => {
                write!(f, "invalid length for network: {e}")
            }
        }
    }
}

impl fmt::Debug for NetworkParseError {
    #[inline]
    fn fmt(&self, f: &mut fmt::Formatter<'_>) -> fmt::Result {
        fmt::Display::fmt(self, f)
    }
}

impl Error for NetworkParseError {
    #[inline]
    fn description(&self) -> &str {
        "network parse error"
    }

    #[inline]
    fn source(&self) -> Option<&(dyn Error + 'static)> {
        match self {
            NetworkParseError::InvalidHostPart => None,
            NetworkParseError::AddrParseError(e) => Some(e),
            NetworkParseError::NetworkLengthParseError(e) => Some(e),
            NetworkParseError::NetworkLengthTooLongError(e) => Some(e),
        }
    }
}

impl From<AddrParseError> for NetworkParseError {
    #[inline]
    fn from(e: AddrParseError) -> NetworkParseError {
        NetworkParseError::AddrParseError(e)
    }
}

impl From<NetworkLengthTooLongError> for NetworkParseError {
    #[inline]
    fn from(e: NetworkLengthTooLongError) -> NetworkParseError {
        NetworkParseError::NetworkLengthTooLongError(e)
    }
}

/// Why two hosts, or two addresses and a prefix length, are no pair.
///
/// ```
/// # use cidr::{errors::*, more::{canon::*, *}, parsers::*, *};
/// # use std::net::*;
/// let (one, other) = ("10.0.0.1/8".parse()?, "11.0.0.1/8".parse()?);
/// assert_eq!(format!("{:?}", Ipv4InetPair::new(one, other)), "Err(addresses not in shared network)");
/// # Ok::<(), Box<dyn std::error::Error>>(())
/// ```
#[derive(Clone, PartialEq)]
pub enum InetTupleError {
    /// The families differ, the prefix lengths of two hosts differ, or the two are in different networks: `addresses
    /// not in shared network`.
    NotInSharedNetwork,
    /// The prefix length is above the width of the family.
    NetworkLengthTooLongError(NetworkLengthTooLongError),
}

impl fmt::Display for InetTupleError {
    #[inline]
    fn fmt(&self, f: &mut fmt::Formatter<'_>) -> fmt::Result {
        match self {
            InetTupleError::NotInSharedNetwork => f.write_str("addresses not in shared network"),
            InetTupleError::NetworkLengthTooLongError(e) => {
                write!(f, "invalid length for network: {e}")
            }
        }
    }
}

impl fmt::Debug for InetTupleError {
    #[inline]
    fn fmt(&self, f: &mut fmt::Formatter<'_>) -> fmt::Result {
        fmt::Display::fmt(self, f)
    }
}

impl Error for InetTupleError {
    #[inline]
    fn description(&self) -> &str {
        "inet tuple error"
    }

    #[inline]
    fn source(&self) -> Option<&(dyn Error + 'static)> {
        match self {
            InetTupleError::NotInSharedNetwork => None,
            InetTupleError::NetworkLengthTooLongError(e) => Some(e),
        }
    }
}

impl From<NetworkLengthTooLongError> for InetTupleError {
    #[inline]
    fn from(e: NetworkLengthTooLongError) -> InetTupleError {
        InetTupleError::NetworkLengthTooLongError(e)
    }
}

/// Why bytes are not parsed as compact bytes.
///
/// Parsing returns the first of these that applies: no byte at all (`Truncated`), `InvalidTag`, too few octets
/// (`Truncated`), `InvalidAny`, `InvalidFamily`, `InvalidHostPart`.
#[derive(Clone, PartialEq, Eq)]
pub enum CompactError {
    /// There is no byte, or there are fewer octets than the tag says: `compact bytes end too early`.
    Truncated,
    /// The tag is that of no prefix length in either family, and not that of `any`: `invalid tag`.
    InvalidTag,
    /// The tag is that of `any`, which only `AnyIpCidr` has: ``invalid value: `any` ``.
    InvalidAny,
    /// The tag is of this family, and the type is of the other one: ``invalid type: `Ipv4Addr` `` or ``invalid type:
    /// `Ipv6Addr` ``.
    InvalidFamily(Family),
    /// A bit after the prefix is set, and the type is a network: `host part of address was not zero`.
    InvalidHostPart,
}

impl CompactError {
    /// The message, as it is printed, in an `ArrayString`, so that nothing is allocated. It has at most 33 bytes.
    ///
    /// ```
    /// # use cidr::{errors::*, more::{canon::*, *}, parsers::*, *};
    /// # use std::net::*;
    /// let parsed = Ipv4Cidr::from_compact(&[64]);
    /// assert_eq!(format!("{:?}", parsed.map_err(|e| e.to_text())), "Err(\"compact bytes end too early\")");
    /// # Ok::<(), Box<dyn std::error::Error>>(())
    /// ```
    pub fn to_text(&self) -> ArrayString<33> {
        let mut text = ArrayString::new();
        text.push_str(match self {
            CompactError::Truncated => "compact bytes end too early",
            CompactError::InvalidTag => "invalid tag",
            CompactError::InvalidAny => "invalid value: `any`",
            CompactError::InvalidFamily(Family::Ipv4) => "invalid type: `Ipv4Addr`",
            CompactError::InvalidFamily(Family::Ipv6) => "invalid type: `Ipv6Addr`",
            CompactError::InvalidHostPart => "host part of address was not zero",
        });
        text
    }
}

impl fmt::Display for CompactError {
    #[inline]
    fn fmt(&self, f: &mut fmt::Formatter<'_>) -> fmt::Result {
        f.write_str(self.to_text().as_str())
    }
}

impl fmt::Debug for CompactError {
    #[inline]
    fn fmt(&self, f: &mut fmt::Formatter<'_>) -> fmt::Result {
        fmt::Display::fmt(self, f)
    }
}

impl Error for CompactError {}

/// Why bytes are not parsed as prefix bytes.
///
/// Parsing returns the first of these that applies: no byte at all (`Truncated`), `LengthTooLong`, too few octets
/// (`Truncated`).
#[derive(Clone, PartialEq, Eq)]
pub enum PrefixBytesError {
    /// The prefix length is above the width of the family, 32 or 128: `prefix length is too long`.
    LengthTooLong,
    /// There is no byte, or there are fewer octets than hold the prefix: `prefix bytes end too early`.
    Truncated,
}

impl PrefixBytesError {
    /// The message, as it is printed, in an `ArrayString`, so that nothing is allocated. It has at most 26 bytes.
    ///
    /// ```
    /// # use cidr::{errors::*, more::{canon::*, *}, parsers::*, *};
    /// # use std::net::*;
    /// let parsed = Ipv4Cidr::from_prefix_bytes(&[33]);
    /// assert_eq!(format!("{:?}", parsed.map_err(|e| e.to_text())), "Err(\"prefix length is too long\")");
    /// # Ok::<(), Box<dyn std::error::Error>>(())
    /// ```
    #[inline]
    pub fn to_text(&self) -> ArrayString<26> {
        let mut text = ArrayString::new();
        text.push_str(match self {
            PrefixBytesError::LengthTooLong => "prefix length is too long",
            PrefixBytesError::Truncated => "prefix bytes end too early",
        });
        text
    }
}

impl fmt::Display for PrefixBytesError {
    #[inline]
    fn fmt(&self, f: &mut fmt::Formatter<'_>) -> fmt::Result {
        f.write_str(self.to_text().as_str())
    }
}

impl fmt::Debug for PrefixBytesError {
    #[inline]
    fn fmt(&self, f: &mut fmt::Formatter<'_>) -> fmt::Result {
        fmt::Display::fmt(self, f)
    }
}

impl Error for PrefixBytesError {}
