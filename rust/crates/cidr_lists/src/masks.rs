//! Networks and hosts with a mask in place of the prefix length.

use crate::columns::len_to_white_space;
use crate::descriptions::length_of_mask;
use crate::errors::BadText;
use crate::lines::HostBits;
use crate::wrong::{Wrong, has_spaced_address, wrong_with};
use cidr::{IpAddr, IpCidr, IpInet};
use cidr_ext::TextFault;
use cidr_io::shown::excerpt;

/// The prefix length that a mask of the family of an address stands for.
fn length_beside(address: &IpAddr, mask: &IpAddr) -> Option<u8> {
    match address {
        IpAddr::V4(_) => match mask {
            IpAddr::V4(mask) => length_of_mask(*mask),
            IpAddr::V6(_) => None,
        },
        IpAddr::V6(_) => match mask {
            IpAddr::V6(mask) => length_of_mask(*mask),
            IpAddr::V4(_) => None,
        },
    }
}

/// The host whose address the first string is, and the second a mask of its prefix length.
fn host_of(front: &str, back: &str) -> Option<IpInet> {
    let Ok(address) = front.parse::<IpAddr>() else {
        return None;
    };
    let Ok(mask) = back.parse::<IpAddr>() else {
        return None;
    };
    let Some(len) = length_beside(&address, &mask) else {
        return None;
    };
    match IpInet::new(address, len) {
        Ok(host) => Some(host),
        Err(_) => None,
    }
}

/// What stands before the first white space of a string, and what behind it, without white space in front.
#[inline]
fn cut_at_white_space(text: &str) -> (&str, &str) {
    let (front, back) = text.split_at(len_to_white_space(text.as_bytes()));
    (front, back.trim_ascii_start())
}

/// The host that a string with a mask is: an address and, behind a slash or white space, a network mask or a host mask.
/// A mask that could be either is a network mask.
#[inline]
pub(crate) fn masked_host(text: &str) -> Option<IpInet> {
    if let Some((front, back)) = text.split_once('/') {
        return host_of(front, back);
    }
    let (front, back) = cut_at_white_space(text);
    host_of(front, back)
}

/// The network that a string with a mask is: the same host, if no bit after its prefix is set.
pub(crate) fn masked_network(text: &str) -> Option<IpCidr> {
    let Some(host) = masked_host(text) else {
        return None;
    };
    if host.first() == host {
        Some(host.network())
    } else {
        None
    }
}

/// The network of the host that a string with a mask is. A mask of length 0 is a network mask as well as a host mask, and
/// says none where a bit is set.
#[inline]
pub(crate) fn cleared_host(text: &str) -> Option<IpCidr> {
    let Some(host) = masked_host(text) else {
        return None;
    };
    if host.network_length() == 0 && host.first() != host {
        return None;
    }
    Some(host.network())
}

/// What is wrong with a string where a mask in place of a prefix length is not.
#[inline]
fn but_a_mask(wrong: Option<Wrong>) -> Option<Wrong> {
    match wrong {
        Some(Wrong::Text(TextFault::MaskForLength)) => None,
        other => other,
    }
}

/// What is wrong with a host by an address and a mask.
#[inline]
fn wrong_behind(host: IpInet) -> Wrong {
    if host.network_length() == 0 {
        Wrong::EitherMask(host)
    } else {
        Wrong::Text(TextFault::HostBits(host.network()))
    }
}

/// What is wrong with a string that is no network where masks are read.
fn wrong_with_masks(text: &str) -> Option<Wrong> {
    match masked_host(text) {
        Some(host) => Some(wrong_behind(host)),
        None => {
            if has_spaced_address(text) {
                Some(Wrong::NoMask)
            } else {
                but_a_mask(wrong_with(text))
            }
        }
    }
}

/// A string that is no network where networks are read in this way.
#[inline]
pub(crate) fn bad_network(host_bits: HostBits, text: &str) -> BadText {
    match host_bits {
        HostBits::Refused | HostBits::Cleared => BadText::new(text),
        HostBits::RefusedWithMasks | HostBits::ClearedWithMasks => BadText {
            text: excerpt(text),
            wrong: wrong_with_masks(text),
        },
    }
}
