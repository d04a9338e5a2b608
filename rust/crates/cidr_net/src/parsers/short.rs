//! Short IPv4 strings, which leave out octets at the end.

use crate::cidr::network::NetworkCalls as _;
use crate::inet::host::HostCalls as _;
use crate::inet_pair::host_pair::HostPairCalls as _;
use crate::addr::error::AddrParseError;
use crate::addr::ip::IpAddr;
use crate::addr::v4::Ipv4Addr;
use crate::cidr::any::AnyIpCidr;
use crate::cidr::combined::IpCidr;
use crate::cidr::network::Ipv4Cidr;
use crate::errors::NetworkParseError;
use crate::parsers::any::parse_any_cidr_full;
use crate::parsers::networks::parse_cidr_full;
use crate::parsers::parts::{Part, after_plus, read_parts, take_number};
use core::str::FromStr;

/// A decimal octet, after an optional plus.
struct ShortPart;

impl Part for ShortPart {
    #[inline]
    fn take(text: &[u8]) -> Option<(u32, &[u8])> {
        take_number(after_plus(text), 10, 255)
    }
}

/// The network of the one to four octets of a string.
#[inline]
fn read_short(text: &[u8]) -> Option<Ipv4Cidr> {
    let parts = read_parts::<ShortPart>(text)?;
    let missing = 24 - 8 * parts.count;
    let octets = parts.front * 256 + parts.last;
    let first = Ipv4Addr::from_bits(octets << missing);
    Some(Ipv4Cidr::holding(first, 32 - missing))
}

/// The network of the one to four octets of a short IPv4 string. The prefix length has eight bits for each octet.
///
/// Each octet is decimal, and may have a plus and zeros before it. [`inet_addr`](super::inet_addr) parses the same
/// strings as other addresses: `192.168` as 192.0.0.168. A string with a slash is an error, and the error is the
/// `AddrParseError` of `Ipv4Addr`.
///
/// ```
/// # use cidr::{errors::*, more::{canon::*, *}, parsers::*, *};
/// # use std::net::*;
/// assert_eq!(format!("{}", parse_short_ipv4_address_as_cidr("192.168")?), "192.168.0.0/16");
/// assert_eq!(format!("{}", parse_short_ipv4_address_as_cidr("192.0.2.1")?), "192.0.2.1");
/// # Ok::<(), Box<dyn std::error::Error>>(())
/// ```
///
/// # Errors
///
/// `NetworkParseError`, whose variant is the first of the errors in the order that the crate's page has.
#[inline]
pub fn parse_short_ipv4_address_as_cidr(s: &str) -> Result<Ipv4Cidr, NetworkParseError> {
    match read_short(s.as_bytes()) {
        Some(network) => Ok(network),
        None => Err(NetworkParseError::AddrParseError(crate::addr::error::ipv4())),
    }
}

/// The network of full prefix length of an address of either family, or the network of a short IPv4 string, as
/// [`parse_short_ipv4_address_as_cidr`] parses it.
///
/// A string with a slash is an error, and the error is the `AddrParseError` of `IpAddr`.
///
/// ```
/// # use cidr::{errors::*, more::{canon::*, *}, parsers::*, *};
/// # use std::net::*;
/// assert_eq!(format!("{}", parse_short_ip_address_as_cidr("10")?), "10.0.0.0/8");
/// assert_eq!(format!("{}", parse_short_ip_address_as_cidr("::1")?), "::1");
/// # Ok::<(), Box<dyn std::error::Error>>(())
/// ```
///
/// # Errors
///
/// `NetworkParseError`, whose variant is the first of the errors in the order that the crate's page has.
#[inline]
pub fn parse_short_ip_address_as_cidr(s: &str) -> Result<IpCidr, NetworkParseError> {
    match crate::addr::ip::read_ip(s) {
        Ok(address) => Ok(IpCidr::new_host(address)),
        Err(e) => match read_short(s.as_bytes()) {
            Some(network) => Ok(IpCidr::V4(network)),
            None => Err(NetworkParseError::AddrParseError(e)),
        },
    }
}

/// The network of a string with a slash, as `Ipv4Cidr` parses it, or else of a short string. With a slash there have to
/// be four octets.
///
/// ```
/// # use cidr::{errors::*, more::{canon::*, *}, parsers::*, *};
/// # use std::net::*;
/// assert_eq!(format!("{}", parse_short_ipv4_cidr("10.0.0.0/9")?), "10.0.0.0/9");
/// assert_eq!(format!("{}", parse_short_ipv4_cidr("10.7")?), "10.7.0.0/16");
/// # Ok::<(), Box<dyn std::error::Error>>(())
/// ```
///
/// # Errors
///
/// `NetworkParseError`, whose variant is the first of the errors in the order that the crate's page has.
#[inline]
pub fn parse_short_ipv4_cidr(s: &str) -> Result<Ipv4Cidr, NetworkParseError> {
    parse_cidr_full(s, crate::addr::v4::read_v4, parse_short_ipv4_address_as_cidr)
}

/// The network of a string with a slash, as `IpCidr` parses it, or what [`parse_short_ip_address_as_cidr`] parses.
///
/// ```
/// # use cidr::{errors::*, more::{canon::*, *}, parsers::*, *};
/// # use std::net::*;
/// assert_eq!(format!("{}", parse_short_ip_cidr("10.7")?), "10.7.0.0/16");
/// # Ok::<(), Box<dyn std::error::Error>>(())
/// ```
///
/// # Errors
///
/// `NetworkParseError`, whose variant is the first of the errors in the order that the crate's page has.
#[inline]
pub fn parse_short_ip_cidr(s: &str) -> Result<IpCidr, NetworkParseError> {
    parse_cidr_full(s, crate::addr::ip::read_ip, parse_short_ip_address_as_cidr)
}

/// `Any` for the string `any`, and for every other what [`parse_short_ip_cidr`] parses.
///
/// ```
/// # use cidr::{errors::*, more::{canon::*, *}, parsers::*, *};
/// # use std::net::*;
/// assert_eq!(format!("{}", parse_short_any_ip_cidr("any")?), "any");
/// assert_eq!(format!("{}", parse_short_any_ip_cidr("10.7")?), "10.7.0.0/16");
/// # Ok::<(), Box<dyn std::error::Error>>(())
/// ```
///
/// # Errors
///
/// `NetworkParseError`, whose variant is the first of the errors in the order that the crate's page has.
#[inline]
pub fn parse_short_any_ip_cidr(s: &str) -> Result<AnyIpCidr, NetworkParseError> {
    parse_any_cidr_full(s, crate::addr::ip::read_ip, parse_short_ip_address_as_cidr)
}
