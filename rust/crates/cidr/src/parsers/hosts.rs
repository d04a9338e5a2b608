//! Hosts, by parsers of the parts of a string.

use crate::addr::error::AddrParseError;
use crate::errors::NetworkParseError;
use crate::text::read::read_at_slash;
use crate::traits::{Address, Inet};

/// The host of a string with a slash, of which `address_parser` parses what precedes the last slash. A string with no
/// slash is passed to `host_parser`, and its result is returned.
///
/// The first error is returned: that of `address_parser`; `NetworkLengthParseError` for what follows the slash;
/// `NetworkLengthTooLongError`.
///
/// ```
/// # use cidr::{canon::*, errors::*, parsers::*, *};
/// # use std::str::FromStr;
/// let loose = |s: &str| parse_loose_ipv4(s);
/// let host = parse_inet_full("127.1/8", loose, Ipv4Inet::from_str)?;
/// assert_eq!(format!("{}", host), "127.0.0.1/8");
/// # Ok::<(), Box<dyn std::error::Error>>(())
/// ```
///
/// # Errors
///
/// `NetworkParseError`, whose variant is the first of the errors in the order that the crate's page has.
#[inline]
pub fn parse_inet_full<I, AP, HP>(
    s: &str,
    address_parser: AP,
    host_parser: HP,
) -> Result<I, NetworkParseError>
where
    I: Inet,
    AP: FnOnce(&str) -> Result<I::Address, AddrParseError>,
    HP: FnOnce(&str) -> Result<I, NetworkParseError>,
{
    match read_at_slash(s, address_parser) {
        None => host_parser(s),
        Some(Ok((address, len))) => host_at(address, len),
        Some(Err(e)) => Err(e),
    }
}

/// The host of a string, of which `address_parser` parses what precedes the last slash, or the whole string where there
/// is none. An address with no slash is the host of full prefix length.
///
/// The first error is returned: that of `address_parser`; `NetworkLengthParseError` for what follows the slash;
/// `NetworkLengthTooLongError`.
///
/// ```
/// # use cidr::{canon::*, errors::*, parsers::*, *};
/// let loose = |s: &str| parse_loose_ipv4(s);
/// let host: Ipv4Inet = parse_inet("127.1/8", loose)?;
/// assert_eq!(format!("{}", host), "127.0.0.1/8");
/// # Ok::<(), Box<dyn std::error::Error>>(())
/// ```
///
/// # Errors
///
/// `NetworkParseError`, whose variant is the first of the errors in the order that the crate's page has.
#[inline]
pub fn parse_inet<I, AP>(s: &str, address_parser: AP) -> Result<I, NetworkParseError>
where
    I: Inet,
    AP: Fn(&str) -> Result<I::Address, AddrParseError>,
{
    match read_at_slash(s, &address_parser) {
        None => Ok(I::new_host(address_parser(s)?)),
        Some(Ok((address, len))) => host_at(address, len),
        Some(Err(e)) => Err(e),
    }
}

/// The host of an address and a length.
#[inline]
fn host_at<I>(address: I::Address, len: u8) -> Result<I, NetworkParseError>
where
    I: Inet,
{
    Ok(I::new(address, len)?)
}
