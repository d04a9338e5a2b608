//! What is wrong with a string that is no network and no address.

use cidr_support::arrayvec::ArrayString;
use cidr::{IpAddr, IpInet};
use cidr_ext::{TextFault, text_fault};

/// What is wrong with a string that is no network and no address, in the order in which it is looked for.
#[derive(Clone, Copy, Debug)]
pub enum Wrong {
    /// It begins with a byte order mark, U+FEFF: `a byte order mark in front`.
    ByteOrderMark,
    /// What `text_fault` of `cidr_ext` finds.
    Text(TextFault),
    /// An address stands behind the first slash, and is no mask: `no contiguous mask of its family`.
    NoMask,
    /// Two addresses have a hyphen between them: `a range of addresses`.
    Range,
    /// A network or an address stands before a space or a tab: `more than a network or an address`.
    MoreBehind,
    /// Where masks are read, a mask of a host with set bits is a network mask of no bit as well as a host mask of all:
    /// `/0 by a network mask, 10.0.0.1 by a wildcard`.
    EitherMask(IpInet),
}

impl Wrong {
    /// The message, of at most 99 bytes. Nothing is allocated.
    pub fn to_text(&self) -> ArrayString<99> {
        let mut text = ArrayString::new();
        match self {
            Wrong::ByteOrderMark => text.push_str("a byte order mark in front"),
            Wrong::Text(fault) => text.push_str(fault.to_text().as_str()),
            Wrong::NoMask => text.push_str("no contiguous mask of its family"),
            Wrong::Range => text.push_str("a range of addresses"),
            Wrong::MoreBehind => text.push_str("more than a network or an address"),
            Wrong::EitherMask(host) => {
                text.push_str("/0 by a network mask, ");
                text.push_str(host.address().to_text().as_str());
                text.push_str(" by a wildcard");
            }
        }
        text
    }

    /// Whether it is wrong of a prefix length, which an address has not.
    #[inline]
    pub fn is_of_length(&self) -> bool {
        match self {
            Wrong::Text(TextFault::MaskForLength | TextFault::HostBits(_)) => true,
            Wrong::NoMask | Wrong::EitherMask(_) => true,
            _ => false,
        }
    }
}

/// Whether a string begins with U+FEFF.
#[inline]
fn begins_with_mark(bytes: &[u8]) -> bool {
    match bytes {
        [a, b, c, ..] => *a == 0xef && (*b == 0xbb && *c == 0xbf),
        _ => false,
    }
}

/// Whether a string is an address.
#[inline]
fn is_address(text: &str) -> bool {
    text.parse::<IpAddr>().is_ok()
}

/// The same without white space at both ends.
#[inline]
fn is_spaced_address(text: &str) -> bool {
    is_address(text.trim_ascii())
}

/// Whether a string is a network or a host.
#[inline]
fn is_host(text: &str) -> bool {
    text.parse::<IpInet>().is_ok()
}

/// Whether an address stands behind the first slash.
#[inline]
fn has_address_behind(text: &str) -> bool {
    match text.split_once('/') {
        Some((_front, back)) => is_address(back),
        None => false,
    }
}

/// Whether an address stands behind the first space.
#[inline]
pub(crate) fn has_spaced_address(text: &str) -> bool {
    match text.split_once(' ') {
        Some((_front, back)) => is_address(back),
        None => false,
    }
}

/// Whether two strings are.
#[inline]
fn are_spaced_addresses(front: &str, back: &str) -> bool {
    if !is_spaced_address(front) {
        return false;
    }
    is_spaced_address(back)
}

/// Whether a string is a range.
#[inline]
fn is_range(text: &str) -> bool {
    match text.split_once('-') {
        Some((front, back)) => are_spaced_addresses(front, back),
        None => false,
    }
}

/// Whether a network or an address stands before the first space.
#[inline]
fn has_more_behind_space(text: &str) -> bool {
    match text.split_once(' ') {
        Some((front, _back)) => is_host(front),
        None => false,
    }
}

/// Whether a network or an address stands before the first tab.
#[inline]
fn has_more_behind_tab(text: &str) -> bool {
    match text.split_once('\t') {
        Some((front, _back)) => is_host(front),
        None => false,
    }
}

/// Whether a network or an address stands before the first space or the first tab.
#[inline]
fn has_more_behind(text: &str) -> bool {
    if has_more_behind_space(text) {
        return true;
    }
    has_more_behind_tab(text)
}

/// What is wrong with a string that is no network and no address: the first of `Wrong` that holds, but for
/// `EitherMask`; `None` where none does. It costs a few passes over the string, and allocates nothing.
pub fn wrong_with(text: &str) -> Option<Wrong> {
    if begins_with_mark(text.as_bytes()) {
        return Some(Wrong::ByteOrderMark);
    }
    if let Some(fault) = text_fault(text) {
        return Some(Wrong::Text(fault));
    }
    if has_address_behind(text) {
        return Some(Wrong::NoMask);
    }
    if is_range(text) {
        return Some(Wrong::Range);
    }
    if has_more_behind(text) {
        return Some(Wrong::MoreBehind);
    }
    None
}
