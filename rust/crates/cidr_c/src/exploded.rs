//! Addresses and hosts as strings with all hexadecimal digits.

use crate::labels::two_labels;
use crate::printing::{print, print_bytes};
use crate::values::{CValue, address_of, host_of};
use cidr_support::arrayvec::ArrayVec;
use cidr::{IpAddr, IpInet, Ipv6Addr, Ipv6Inet};
use cidr_io::decimal::decimal_text;

/// Writes an address as a string, in IPv6 with all digits, and returns its length, at most 39; 0 where the value is no
/// address.
#[inline]
pub fn pcidr_print_exploded_address(address: &CValue, out: &mut [u8]) -> usize {
    match address_of(address) {
        Some(address) => print_address(&address, out),
        None => 0,
    }
}

/// Writes a host as a string, in IPv6 with all digits, with its prefix length also where that is full, and returns its
/// length, at most 43; 0 where the value is no host.
#[inline]
pub fn pcidr_print_exploded_host(host: &CValue, out: &mut [u8]) -> usize {
    match host_of(host) {
        Some(host) => print_host(&host, out),
        None => 0,
    }
}

/// Writes an address, in IPv6 with all digits.
#[inline]
fn print_address(address: &IpAddr, out: &mut [u8]) -> usize {
    match address {
        IpAddr::V4(address) => print(address.to_text().as_str(), out),
        IpAddr::V6(address) => print_ipv6_address(address, out),
    }
}

/// Writes a host with its prefix length, in IPv6 with all digits.
#[inline]
fn print_host(host: &IpInet, out: &mut [u8]) -> usize {
    match host {
        IpInet::V4(host) => print(host.with_length().to_text().as_str(), out),
        IpInet::V6(host) => print_ipv6_host(host, out),
    }
}

/// Writes an IPv6 address with all digits. The string stays where it was made.
#[inline]
fn print_ipv6_address(address: &Ipv6Addr, out: &mut [u8]) -> usize {
    let mut text = ArrayVec::new();
    push_groups(&mut text, &address.segments());
    print_bytes(text.as_slice(), out)
}

/// Writes an IPv6 host with all digits, and its prefix length.
#[inline]
fn print_ipv6_host(host: &Ipv6Inet, out: &mut [u8]) -> usize {
    let mut text = ArrayVec::new();
    push_groups(&mut text, &host.address().segments());
    text.push(b'/');
    push_decimal(&mut text, host.network_length());
    print_bytes(text.as_slice(), out)
}

/// Appends groups with all digits, with colons between them.
#[inline]
fn push_groups(text: &mut ArrayVec<u8, 43>, groups: &[u16]) {
    if let [first, rest @ ..] = groups {
        push_group(text, *first);
        for group in rest {
            text.push(b':');
            push_group(text, *group);
        }
    }
}

/// Appends the four digits of a group.
#[inline(always)]
fn push_group(text: &mut ArrayVec<u8, 43>, group: u16) {
    push_octet(text, (group / 0x100) as u8);
    push_octet(text, (group % 0x100) as u8);
}

/// Appends the two digits of an octet, which are its labels in reverse DNS the other way round.
#[inline(always)]
fn push_octet(text: &mut ArrayVec<u8, 43>, octet: u8) {
    let labels = two_labels(octet).as_bytes();
    text.push(labels[2]);
    text.push(labels[0]);
}

/// Appends the number in decimal.
#[inline]
fn push_decimal(text: &mut ArrayVec<u8, 43>, n: u8) {
    let digits = decimal_text(u128::from(n));
    let Ok(()) = text.try_extend_from_slice(digits.as_str().as_bytes()) else {
        unreachable!()
    };
}
