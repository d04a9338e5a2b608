//! Networks, by parsers of the parts of a string. A set bit after the prefix is ignored.

use crate::addr::error::AddrParseError;
use crate::errors::NetworkParseError;
use crate::text::read::read_at_slash;
use crate::traits::{Address, Cidr, Inet};

/// As `parse_cidr_full`, but set bits after the prefix are ignored: the network is that which has the address.
///
/// The result of `host_parser` is returned as it is, also where it is `InvalidHostPart`.
///
/// ```
/// # use cidr::{canon::*, errors::*, parsers::*, *};
/// # use std::str::FromStr;
/// let short = |s: &str| parse_short_ipv4_cidr(s);
/// let network = parse_cidr_full_ignore_hostbits("10.0.0.7/8", Ipv4Addr::from_str, short)?;
/// assert_eq!(format!("{}", network), "10.0.0.0/8");
/// # Ok::<(), Box<dyn std::error::Error>>(())
/// ```
///
/// # Errors
///
/// `NetworkParseError`, whose variant is the first of the errors in the order that the crate's page has.
#[inline]
pub fn parse_cidr_full_ignore_hostbits<C, AP, HP>(
    s: &str,
    address_parser: AP,
    host_parser: HP,
) -> Result<C, NetworkParseError>
where
    C: Cidr,
    C::Address: Address<Cidr = C>,
    <C::Address as Address>::Inet: Inet<Address = C::Address>,
    AP: FnOnce(&str) -> Result<C::Address, AddrParseError>,
    HP: FnOnce(&str) -> Result<C, NetworkParseError>,
{
    match read_at_slash(s, address_parser) {
        None => host_parser(s),
        Some(Ok((address, len))) => network_holding(address, len),
        Some(Err(e)) => Err(e),
    }
}

/// As `parse_cidr`, but set bits after the prefix are ignored: the network is that which has the address.
///
/// ```
/// # use cidr::{canon::*, errors::*, parsers::*, *};
/// let loose = |s: &str| parse_loose_ipv4(s);
/// let network: Ipv4Cidr = parse_cidr_ignore_hostbits("10.7/8", loose)?;
/// assert_eq!(format!("{}", network), "10.0.0.0/8");
/// # Ok::<(), Box<dyn std::error::Error>>(())
/// ```
///
/// # Errors
///
/// `NetworkParseError`, whose variant is the first of the errors in the order that the crate's page has.
#[inline]
pub fn parse_cidr_ignore_hostbits<C, AP>(
    s: &str,
    address_parser: AP,
) -> Result<C, NetworkParseError>
where
    C: Cidr,
    C::Address: Address<Cidr = C>,
    <C::Address as Address>::Inet: Inet<Address = C::Address>,
    AP: Fn(&str) -> Result<C::Address, AddrParseError>,
{
    match read_at_slash(s, &address_parser) {
        None => Ok(C::new_host(address_parser(s)?)),
        Some(Ok((address, len))) => network_holding(address, len),
        Some(Err(e)) => Err(e),
    }
}

/// The network of this length that holds the address.
#[inline]
fn network_holding<C>(address: C::Address, len: u8) -> Result<C, NetworkParseError>
where
    C: Cidr,
    C::Address: Address<Cidr = C>,
    <C::Address as Address>::Inet: Inet<Address = C::Address>,
{
    match <C::Address as Address>::Inet::new(address, len) {
        Ok(host) => Ok(host.network()),
        Err(e) => Err(NetworkParseError::NetworkLengthTooLongError(e)),
    }
}
