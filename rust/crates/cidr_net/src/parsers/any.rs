//! The parsers for `AnyIpCidr`: the string `any` comes first, and every other is parsed as a network of either family.

use crate::addr::error::AddrParseError;
use crate::addr::ip::IpAddr;
use crate::cidr::any::AnyIpCidr;
use crate::cidr::combined::IpCidr;
use crate::errors::NetworkParseError;
use crate::parsers::ignore_hostbits::{
    parse_cidr_full_ignore_hostbits, parse_cidr_ignore_hostbits,
};
use crate::parsers::networks::{parse_cidr, parse_cidr_full};
use core::str::FromStr;

/// `Any` for the string `any`, for which no parser is called. For every other string the result of `parse_cidr_full`.
///
/// ```
/// # use cidr::{errors::*, more::{canon::*, *}, parsers::*, *};
/// # use std::net::*;
/// # use std::str::FromStr;
/// let short = |s: &str| parse_short_ip_cidr(s);
/// let network = parse_any_cidr_full("10.7", IpAddr::from_str, short)?;
/// assert_eq!(format!("{}", network), "10.7.0.0/16");
/// # Ok::<(), Box<dyn std::error::Error>>(())
/// ```
///
/// # Errors
///
/// `NetworkParseError`, whose variant is the first of the errors in the order that the crate's page has.
#[inline]
pub fn parse_any_cidr_full<AP, HP>(
    s: &str,
    address_parser: AP,
    host_parser: HP,
) -> Result<AnyIpCidr, NetworkParseError>
where
    AP: FnOnce(&str) -> Result<IpAddr, AddrParseError>,
    HP: FnOnce(&str) -> Result<IpCidr, NetworkParseError>,
{
    if is_any(s) {
        return Ok(AnyIpCidr::Any);
    }
    any_of(parse_cidr_full(s, address_parser, host_parser))
}

/// `Any` for the string `any`, for which `address_parser` is not called. For every other string the result of
/// `parse_cidr`.
///
/// ```
/// # use cidr::{errors::*, more::{canon::*, *}, parsers::*, *};
/// # use std::net::*;
/// # use std::str::FromStr;
/// assert_eq!(format!("{}", parse_any_cidr("any", IpAddr::from_str)?), "any");
/// assert_eq!(format!("{}", parse_any_cidr("::1", IpAddr::from_str)?), "::1");
/// # Ok::<(), Box<dyn std::error::Error>>(())
/// ```
///
/// # Errors
///
/// `NetworkParseError`, whose variant is the first of the errors in the order that the crate's page has.
#[inline]
pub fn parse_any_cidr<AP>(s: &str, address_parser: AP) -> Result<AnyIpCidr, NetworkParseError>
where
    AP: Fn(&str) -> Result<IpAddr, AddrParseError>,
{
    if is_any(s) {
        return Ok(AnyIpCidr::Any);
    }
    any_of(parse_cidr(s, address_parser))
}

/// `Any` for the string `any`, for which no parser is called. For every other string the result of
/// `parse_cidr_full_ignore_hostbits`.
///
/// ```
/// # use cidr::{errors::*, more::{canon::*, *}, parsers::*, *};
/// # use std::net::*;
/// # use std::str::FromStr;
/// let short = |s: &str| parse_short_ip_cidr(s);
/// let network = parse_any_cidr_full_ignore_hostbits("10.0.0.7/8", IpAddr::from_str, short)?;
/// assert_eq!(format!("{}", network), "10.0.0.0/8");
/// # Ok::<(), Box<dyn std::error::Error>>(())
/// ```
///
/// # Errors
///
/// `NetworkParseError`, whose variant is the first of the errors in the order that the crate's page has.
#[inline]
pub fn parse_any_cidr_full_ignore_hostbits<AP, HP>(
    s: &str,
    address_parser: AP,
    host_parser: HP,
) -> Result<AnyIpCidr, NetworkParseError>
where
    AP: FnOnce(&str) -> Result<IpAddr, AddrParseError>,
    HP: FnOnce(&str) -> Result<IpCidr, NetworkParseError>,
{
    if is_any(s) {
        return Ok(AnyIpCidr::Any);
    }
    any_of(parse_cidr_full_ignore_hostbits(s, address_parser, host_parser))
}

/// `Any` for the string `any`, for which `address_parser` is not called. For every other string the result of
/// `parse_cidr_ignore_hostbits`.
///
/// ```
/// # use cidr::{errors::*, more::{canon::*, *}, parsers::*, *};
/// # use std::net::*;
/// # use std::str::FromStr;
/// let network = parse_any_cidr_ignore_hostbits("127.0.0.1/8", IpAddr::from_str)?;
/// assert_eq!(format!("{}", network), "127.0.0.0/8");
/// # Ok::<(), Box<dyn std::error::Error>>(())
/// ```
///
/// # Errors
///
/// `NetworkParseError`, whose variant is the first of the errors in the order that the crate's page has.
#[inline]
pub fn parse_any_cidr_ignore_hostbits<AP>(
    s: &str,
    address_parser: AP,
) -> Result<AnyIpCidr, NetworkParseError>
where
    AP: Fn(&str) -> Result<IpAddr, AddrParseError>,
{
    if is_any(s) {
        return Ok(AnyIpCidr::Any);
    }
    any_of(parse_cidr_ignore_hostbits(s, address_parser))
}

/// Whether the text is `any`.
#[inline]
fn is_any(s: &str) -> bool {
    s == "any"
}

/// The network of either family as one that may be `Any`.
#[inline]
fn any_of(network: Result<IpCidr, NetworkParseError>) -> Result<AnyIpCidr, NetworkParseError> {
    match network {
        Ok(network) => Ok(AnyIpCidr::from(network)),
        Err(e) => Err(e),
    }
}

impl FromStr for AnyIpCidr {
    type Err = NetworkParseError;

    #[inline]
    fn from_str(s: &str) -> Result<AnyIpCidr, NetworkParseError> {
        parse_any_cidr(s, crate::addr::ip::read_ip)
    }
}
