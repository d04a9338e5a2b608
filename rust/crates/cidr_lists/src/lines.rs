//! What a line of a list says: nothing, a network, an address or a range.

use crate::errors::{BadText, LineError};
use crate::masks::{bad_network, cleared_host, masked_network};
use cidr::errors::NetworkParseError;
use cidr::{IpAddr, IpCidr, IpInet, Ipv4Addr, Ipv6Addr};
use cidr_io::shown::{byte_excerpt, excerpt};

/// How networks are read: what is done with a set bit after the prefix, and whether a mask may stand in the place of a
/// prefix length, behind a slash or white space, as in `192.0.2.0/255.255.255.0` and `192.0.2.0 0.0.0.255`.
#[derive(Clone, Copy, Debug, PartialEq)]
pub enum HostBits {
    /// A set bit is an error, and so is a mask.
    Refused,
    /// A set bit is taken as unset, so that a host says its network; a mask is an error.
    Cleared,
    /// A set bit is an error, and a mask is read: a network mask, or a host mask, its inverse. What could be either is a
    /// network mask.
    RefusedWithMasks,
    /// A set bit is taken as unset, and a mask is read, but no mask of length 0 of an address with a set bit.
    ClearedWithMasks,
}

impl HostBits {
    /// The way of reading that takes set bits as unset, and reads masks, if these are true.
    #[inline]
    pub fn by(clears: bool, takes_masks: bool) -> HostBits {
        match (clears, takes_masks) {
            (false, false) => HostBits::Refused,
            (true, false) => HostBits::Cleared,
            (false, true) => HostBits::RefusedWithMasks,
            (true, true) => HostBits::ClearedWithMasks,
        }
    }
}

/// What a line says.
#[derive(Clone, Copy)]
pub enum Content {
    /// Nothing.
    Blank,
    /// A network, or an address.
    Network(IpCidr),
    /// The IPv4 addresses from a first to a last one, both included.
    Ipv4Range(Ipv4Addr, Ipv4Addr),
    /// The IPv6 addresses from a first to a last one, both included.
    Ipv6Range(Ipv6Addr, Ipv6Addr),
}

/// Whether a byte begins a comment.
#[inline]
pub(crate) fn is_comment_sign(byte: u8) -> bool {
    byte == b'#' || byte == b';'
}

/// How many bytes stand before the first that begins a comment.
#[inline]
fn len_to_comment(line: &[u8]) -> usize {
    line.iter()
        .position(|byte| is_comment_sign(*byte))
        .unwrap_or(line.len())
}

/// The line without its comment, which goes from the first `#` or `;` to the end: of `10.0.0.0/8 # ours` it is
/// `10.0.0.0/8 `, with the space.
#[inline]
pub fn without_comment(line: &[u8]) -> &[u8] {
    &line[..len_to_comment(line)]
}

/// The address that an end of a range is, without white space at both ends.
#[inline]
fn end_of(text: &str) -> Result<IpAddr, LineError> {
    let end = text.trim_ascii();
    match end.parse() {
        Ok(address) => Ok(address),
        Err(e) => Err(LineError::NoAddress(BadText::new(end), e)),
    }
}

/// The range from an IPv4 address to another one, which this field is.
#[inline]
fn ipv4_range(field: &str, first: Ipv4Addr, last: Ipv4Addr) -> Result<Content, LineError> {
    if first.cmp(&last).is_gt() {
        return Err(LineError::Reversed(excerpt(field)));
    }
    Ok(Content::Ipv4Range(first, last))
}

/// The range from an IPv6 address to another one, which this field is.
#[inline]
fn ipv6_range(field: &str, first: Ipv6Addr, last: Ipv6Addr) -> Result<Content, LineError> {
    if first.cmp(&last).is_gt() {
        return Err(LineError::Reversed(excerpt(field)));
    }
    Ok(Content::Ipv6Range(first, last))
}

/// The range from an address to another one, which this field is.
fn range_of(field: &str, first: IpAddr, last: IpAddr) -> Result<Content, LineError> {
    match first {
        IpAddr::V4(first) => match last {
            IpAddr::V4(last) => ipv4_range(field, first, last),
            IpAddr::V6(_) => Err(LineError::TwoFamilies(excerpt(field))),
        },
        IpAddr::V6(first) => match last {
            IpAddr::V6(last) => ipv6_range(field, first, last),
            IpAddr::V4(_) => Err(LineError::TwoFamilies(excerpt(field))),
        },
    }
}

/// The network of the host that a string is.
#[inline]
fn cleared_network(field: &str) -> Result<IpCidr, NetworkParseError> {
    match field.parse::<IpInet>() {
        Ok(host) => Ok(host.network()),
        Err(e) => Err(e),
    }
}

/// The network that a string is, with a mask or without.
#[inline]
fn network_or_masked(field: &str) -> Result<IpCidr, NetworkParseError> {
    match field.parse() {
        Ok(network) => Ok(network),
        Err(e) => match masked_network(field) {
            Some(network) => Ok(network),
            None => Err(e),
        },
    }
}

/// The network of the host that a string is, with a mask or without.
#[inline]
fn cleared_or_masked(field: &str) -> Result<IpCidr, NetworkParseError> {
    match cleared_network(field) {
        Ok(network) => Ok(network),
        Err(e) => match cleared_host(field) {
            Some(network) => Ok(network),
            None => Err(e),
        },
    }
}

/// The network that a string is; an address is one too. Where set bits are cleared it is that of the host that the string
/// is, and where masks are read the string may have one. The error is the first of parsing it without a mask.
#[inline]
pub fn read_network(host_bits: HostBits, field: &str) -> Result<IpCidr, NetworkParseError> {
    match host_bits {
        HostBits::Refused => field.parse(),
        HostBits::Cleared => cleared_network(field),
        HostBits::RefusedWithMasks => network_or_masked(field),
        HostBits::ClearedWithMasks => cleared_or_masked(field),
    }
}

/// What a field says.
fn content_of_field(host_bits: HostBits, field: &str) -> Result<Content, LineError> {
    if field.is_empty() {
        return Ok(Content::Blank);
    }
    let Some((front, back)) = field.split_once('-') else {
        return match read_network(host_bits, field) {
            Ok(network) => Ok(Content::Network(network)),
            Err(e) => Err(LineError::NoNetwork(bad_network(host_bits, field), e)),
        };
    };
    let first = end_of(front)?;
    let last = end_of(back)?;
    range_of(field, first, last)
}

/// The same way of reading, without masks.
#[inline]
fn without_masks(host_bits: HostBits) -> HostBits {
    match host_bits {
        HostBits::Refused | HostBits::RefusedWithMasks => HostBits::Refused,
        HostBits::Cleared | HostBits::ClearedWithMasks => HostBits::Cleared,
    }
}

/// The network that a whole line is, without white space, comments and masks.
#[inline]
pub(crate) fn whole_network(host_bits: HostBits, line: &[u8]) -> Option<IpCidr> {
    let Ok(text) = core::str::from_utf8(line) else {
        return None;
    };
    match read_network(without_masks(host_bits), text) {
        Ok(network) => Some(network),
        Err(_) => None,
    }
}

/// What a line says, by what stands before its comment, without white space at both ends: a field with a hyphen is a
/// range, whose ends are addresses, with white space around the hyphen or none, and any other a network or an address.
/// `192.0.2.0-192.0.2.9` is a range, and `192.0.2.0 - 192.0.2.9` the same.
///
/// The first error is, in this order: `NotUtf8`; `NoNetwork` without a hyphen; `NoAddress` of what stands before the
/// first hyphen, or behind it; `TwoFamilies`; `Reversed`. A line of more than 1 MiB is for the caller to find.
pub fn content_of(host_bits: HostBits, line: &[u8]) -> Result<Content, LineError> {
    // most lines are a network and nothing else, and this is the shortest way to it
    if let Some(network) = whole_network(host_bits, line) {
        return Ok(Content::Network(network));
    }
    let field = without_comment(line).trim_ascii();
    match core::str::from_utf8(field) {
        Ok(text) => content_of_field(host_bits, text),
        Err(_) => Err(LineError::NotUtf8(byte_excerpt(field))),
    }
}
