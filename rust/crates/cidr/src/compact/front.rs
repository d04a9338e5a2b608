//! What compact bytes begin with, whatever the type that they are parsed as.

use crate::addr::v4::Ipv4Addr;
use crate::addr::v6::Ipv6Addr;
use crate::errors::CompactError;
use crate::family::Family;

/// What stands at the front of compact bytes: `any`, or an address and a prefix length.
#[derive(Clone, Copy)]
pub(crate) enum Front {
    Any,
    V4(Ipv4Addr, u8),
    V6(Ipv6Addr, u8),
}

/// The IPv4 address whose octets come first, if there are enough of them.
#[inline]
fn ipv4_first(octets: &[u8]) -> Option<Ipv4Addr> {
    match octets.split_first_chunk::<4>() {
        Some((first, _)) => Some(Ipv4Addr::from(*first)),
        None => None,
    }
}

/// The IPv6 address whose octets come first, if there are enough of them.
#[inline]
fn ipv6_first(octets: &[u8]) -> Option<Ipv6Addr> {
    match octets.split_first_chunk::<16>() {
        Some((first, _)) => Some(Ipv6Addr::from(*first)),
        None => None,
    }
}

/// Parses what stands at the front, whatever the type.
#[inline(always)]
pub(crate) fn read_front(bytes: &[u8]) -> Result<Front, CompactError> {
    let [tag, octets @ ..] = bytes else {
        return Err(CompactError::Truncated);
    };
    match *tag {
        0..=0x20 => match ipv4_first(octets) {
            Some(address) => Ok(Front::V4(address, *tag)),
            None => Err(CompactError::Truncated),
        },
        0x40..=0xc0 => match ipv6_first(octets) {
            Some(address) => Ok(Front::V6(address, *tag - 0x40)),
            None => Err(CompactError::Truncated),
        },
        0xff => Ok(Front::Any),
        _ => Err(CompactError::InvalidTag),
    }
}

/// How many bytes the address of a family and its tag are.
#[inline]
pub(crate) fn bytes_used(family: Family) -> usize {
    match family {
        Family::Ipv4 => 5,
        Family::Ipv6 => 17,
    }
}
