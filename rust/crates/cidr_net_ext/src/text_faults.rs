//! What is wrong with a string that is no network, no address and no range of addresses.

use crate::group_faults::{GroupFault, some_group_has};
use crate::mask_text::length_of_mask;
use cidr_support::arrayvec::ArrayString;
use cidr::names::{IpAddr, IpCidr, IpInet};
use core::fmt;

/// What is wrong with a string, so that it is no network, no address and no range of addresses, in the order in which
/// `text_fault` looks for it. Octets are decimal numbers joined by dots, also between colons, or one such number in an
/// address without colons.
#[derive(Clone, Copy, PartialEq)]
pub enum TextFault {
    /// An octet has a zero before other digits: `a leading zero in an octet`.
    LeadingZero,
    /// An octet is above 255: `a number above 255`.
    NumberAbove255,
    /// There are fewer or more than four octets: `not four octets`.
    NotFourOctets,
    /// There are more than four hexadecimal digits between colons: `a group of more than four digits`.
    LongGroup,
    /// A network mask or a host mask follows the first slash: `a mask in place of a length`.
    MaskForLength,
    /// A bit after the prefix is set, and this is the network of the host:
    /// `host bits set; the network is 192.0.2.0/24`.
    HostBits(IpCidr),
}

impl TextFault {
    /// The message, of at most 73 bytes. Nothing is allocated.
    ///
    /// ```
    /// # use cidr::names::*;
    /// # use cidr_ext::*;
    /// assert_eq!(format!("{}", TextFault::LeadingZero.to_text()), "a leading zero in an octet");
    /// # Ok::<(), Box<dyn std::error::Error>>(())
    /// ```
    pub fn to_text(&self) -> ArrayString<73> {
        let mut text = ArrayString::new();
        match self {
            TextFault::LeadingZero => text.push_str("a leading zero in an octet"),
            TextFault::NumberAbove255 => text.push_str("a number above 255"),
            TextFault::NotFourOctets => text.push_str("not four octets"),
            TextFault::LongGroup => text.push_str("a group of more than four digits"),
            TextFault::MaskForLength => text.push_str("a mask in place of a length"),
            TextFault::HostBits(network) => {
                text.push_str("host bits set; the network is ");
                text.push_str(network.to_text().as_str());
            }
        }
        text
    }
}

impl fmt::Display for TextFault {
    #[inline]
    fn fmt(&self, f: &mut fmt::Formatter<'_>) -> fmt::Result {
        f.write_str(self.to_text().as_str())
    }
}

impl fmt::Debug for TextFault {
    #[inline]
    fn fmt(&self, f: &mut fmt::Formatter<'_>) -> fmt::Result {
        fmt::Display::fmt(self, f)
    }
}

/// What follows the first slash, or nothing where there is none.
#[inline]
fn behind_slash(text: &str) -> &str {
    match text.split_once('/') {
        Some((_, back)) => back,
        None => "",
    }
}

/// Whether a string is a network mask or a host mask.
#[inline]
fn is_mask(text: &str) -> bool {
    match text.parse::<IpAddr>() {
        Ok(address) => length_of_mask(address).is_some(),
        Err(_) => false,
    }
}

/// The network that is meant by a host that is no network.
#[inline]
fn network_meant(text: &str) -> Option<IpCidr> {
    let Err(_) = text.parse::<IpCidr>() else {
        return None;
    };
    match text.parse::<IpInet>() {
        Ok(host) => Some(host.network()),
        Err(_) => None,
    }
}

/// The first fault of a string in the order of `TextFault`, for the message that it is no network, no address or no
/// range; `None` where none of them is found.
///
/// The address is what precedes the first slash, and of a range, whose ends have a hyphen between them, both are looked
/// at. It costs a few passes over the string, and allocates nothing.
///
/// ```
/// # use cidr::names::*;
/// # use cidr_ext::*;
/// assert_eq!(format!("{:?}", text_fault("192.0.02.1")), "Some(a leading zero in an octet)");
/// assert_eq!(format!("{:?}", text_fault("::ffff:192.0.2.256")), "Some(a number above 255)");
/// assert_eq!(format!("{:?}", text_fault("10/8")), "Some(not four octets)");
/// assert_eq!(format!("{:?}", text_fault("2001:db8::12345")), "Some(a group of more than four digits)");
/// assert_eq!(format!("{:?}", text_fault("192.0.2.0/255.255.255.0")), "Some(a mask in place of a length)");
/// assert_eq!(format!("{:?}", text_fault("192.0.2.7/24")), "Some(host bits set; the network is 192.0.2.0/24)");
/// assert_eq!(format!("{:?}", text_fault("192.0.2.x")), "None");
/// # Ok::<(), Box<dyn std::error::Error>>(())
/// ```
pub fn text_fault(text: &str) -> Option<TextFault> {
    if some_group_has(GroupFault::LeadingZero, text) {
        return Some(TextFault::LeadingZero);
    }
    if some_group_has(GroupFault::NumberAbove255, text) {
        return Some(TextFault::NumberAbove255);
    }
    if some_group_has(GroupFault::NotFourOctets, text) {
        return Some(TextFault::NotFourOctets);
    }
    if some_group_has(GroupFault::LongGroup, text) {
        return Some(TextFault::LongGroup);
    }
    if is_mask(behind_slash(text)) {
        return Some(TextFault::MaskForLength);
    }
    match network_meant(text) {
        Some(network) => Some(TextFault::HostBits(network)),
        None => None,
    }
}
