//! What is told of a network, of the addresses in it and of a prefix length.

use cidr_support::arrayvec::ArrayString;
use cidr::{BitString, Family, IpCidr, Ipv4Cidr, Ipv6Cidr};
use cidr_ext::{AddressExt, CidrExt};

/// The name of a family: `IPv4` or `IPv6`.
#[inline]
pub fn family_name(family: Family) -> &'static str {
    match family {
        Family::Ipv4 => "IPv4",
        Family::Ipv6 => "IPv6",
    }
}

/// The addresses that hosts may have of a network, which has one at least: `192.0.2.1-192.0.2.254` of `192.0.2.0/24`, or
/// the only one.
pub fn usable_text(network: &IpCidr) -> ArrayString<79> {
    let mut hosts = network.usable_hosts();
    let mut text = ArrayString::new();
    let Some(first) = hosts.next() else {
        text.push_str("none");
        return text;
    };
    text.push_str(first.address().to_text().as_str());
    match hosts.next_back() {
        Some(last) => {
            text.push_str("-");
            text.push_str(last.address().to_text().as_str());
            text
        }
        None => text,
    }
}

/// The mask (RFC 4632, 3.1) and the host mask of a network, as a line.
fn mask_pair(network: &IpCidr) -> ArrayString<80> {
    let mask = network.mask().to_text();
    let host_mask = network.host_mask().to_text();
    let mut text = ArrayString::new();
    text.push_str(mask.as_str());
    text.push_str(" ");
    text.push_str(host_mask.as_str());
    text.push_str("\n");
    text
}

/// The first address, the mask and the host mask of a network, as a line: `192.0.2.0 255.255.255.0 0.0.0.255` of
/// `192.0.2.0/24`.
#[inline]
pub fn mask_line(network: &IpCidr) -> ArrayString<120> {
    let mut text = ArrayString::new();
    text.push_str(network.first_address().to_text().as_str());
    text.push_str(" ");
    text.push_str(mask_pair(network).as_str());
    text
}

/// The prefix length that a mask stands for: that of a network mask, or of a host mask that is none.
#[inline]
pub fn length_of_mask<A: AddressExt>(mask: A) -> Option<u8> {
    match mask.mask_length() {
        Some(len) => Some(len),
        None => mask.host_mask_length(),
    }
}

/// The masks of a prefix length in IPv4, as a line, or nothing where it has no such length.
#[inline]
fn ipv4_masks(len: u8) -> ArrayString<80> {
    match Ipv4Cidr::null().subnet(len, 0) {
        Some(network) => mask_pair(&IpCidr::V4(network)),
        None => ArrayString::new(),
    }
}

/// The same in IPv6.
#[inline]
fn ipv6_masks(len: u8) -> ArrayString<80> {
    match Ipv6Cidr::null().subnet(len, 0) {
        Some(network) => mask_pair(&IpCidr::V6(network)),
        None => ArrayString::new(),
    }
}

/// The masks of a prefix length in each family that has it, a line each, IPv4 before IPv6: no line of one above 128.
#[inline]
pub fn length_lines(len: u8) -> ArrayString<160> {
    let mut text = ArrayString::new();
    text.push_str(ipv4_masks(len).as_str());
    text.push_str(ipv6_masks(len).as_str());
    text
}
