//! Networks, by parsers of the parts of a string. A set bit after the prefix is an error.

use crate::addr::error::AddrParseError;
use crate::errors::NetworkParseError;
use crate::text::read::read_at_slash;
use crate::traits::{Address, Cidr};

/// The network of a string with a slash, of which `address_parser` parses what precedes the last slash. A string with
/// no slash is passed to `host_parser`, and its result is returned.
///
/// The first error is returned: that of `address_parser`; `NetworkLengthParseError` for what follows the slash; then
/// those of `Cidr::new`, `NetworkLengthTooLongError` and `InvalidHostPart`.
///
/// ```
/// # use cidr::{canon::*, errors::*, parsers::*, *};
/// # use std::str::FromStr;
/// let short = |s: &str| parse_short_ipv4_cidr(s);
/// let network = parse_cidr_full("10.7", Ipv4Addr::from_str, short)?;
/// assert_eq!(format!("{}", network), "10.7.0.0/16");
/// # Ok::<(), Box<dyn std::error::Error>>(())
/// ```
///
/// # Errors
///
/// `NetworkParseError`, whose variant is the first of the errors in the order that the crate's page has.
#[inline]
pub fn parse_cidr_full<C, AP, HP>(
    s: &str,
    address_parser: AP,
    host_parser: HP,
) -> Result<C, NetworkParseError>
where
    C: Cidr,
    AP: FnOnce(&str) -> Result<C::Address, AddrParseError>,
    HP: FnOnce(&str) -> Result<C, NetworkParseError>,
{
    match read_at_slash(s, address_parser) {
        None => host_parser(s),
        Some(Ok((address, len))) => C::new(address, len),
        Some(Err(e)) => Err(e),
    }
}

/// The network of a string, of which `address_parser` parses what precedes the last slash, or the whole string where
/// there is none. An address with no slash is the network of full prefix length.
///
/// The first error is returned: that of `address_parser`; `NetworkLengthParseError` for what follows the slash; then
/// those of `Cidr::new`, `NetworkLengthTooLongError` and `InvalidHostPart`.
///
/// ```
/// # use cidr::{canon::*, errors::*, parsers::*, *};
/// let loose = |s: &str| parse_loose_ipv4(s);
/// let network: Ipv4Cidr = parse_cidr("0x0a000000/8", loose)?;
/// assert_eq!(format!("{}", network), "10.0.0.0/8");
/// # Ok::<(), Box<dyn std::error::Error>>(())
/// ```
///
/// # Errors
///
/// `NetworkParseError`, whose variant is the first of the errors in the order that the crate's page has.
#[inline]
pub fn parse_cidr<C, AP>(s: &str, address_parser: AP) -> Result<C, NetworkParseError>
where
    C: Cidr,
    AP: Fn(&str) -> Result<C::Address, AddrParseError>,
{
    match read_at_slash(s, &address_parser) {
        None => Ok(C::new_host(address_parser(s)?)),
        Some(Ok((address, len))) => C::new(address, len),
        Some(Err(e)) => Err(e),
    }
}
