//! Texts of a hundred thousand characters, read as each type.

use crate::long;
use cidr::{AnyIpCidr, IpAddr, IpCidr, IpInet, Ipv4Addr, Ipv4Cidr, Ipv4Inet, Ipv6Addr, Ipv6Cidr, Ipv6Inet};
use std::fmt::Display;
use std::str::FromStr;

/// Asserts that a text is read as a value, or refused with an error, that prints this.
fn is_read_as<V: FromStr<Err: Display> + Display>(text: &str, printed: &str) {
    let found = match text.parse::<V>() {
        Ok(value) => value.to_string(),
        Err(error) => error.to_string(),
    };
    assert_eq!(found, printed);
}

/// Asserts it of a network and a host of either family.
fn is_read_as_either(text: &str, printed: &str) {
    is_read_as::<IpCidr>(text, printed);
    is_read_as::<AnyIpCidr>(text, printed);
    is_read_as::<IpInet>(text, printed);
}

/// The same of IPv4 and of either family.
fn is_read_as_ipv4(text: &str, printed: &str) {
    is_read_as::<Ipv4Cidr>(text, printed);
    is_read_as::<Ipv4Inet>(text, printed);
    is_read_as_either(text, printed);
}

/// The same of IPv6 and of either family.
fn is_read_as_ipv6(text: &str, printed: &str) {
    is_read_as::<Ipv6Cidr>(text, printed);
    is_read_as::<Ipv6Inet>(text, printed);
    is_read_as_either(text, printed);
}

#[test]
fn zeros_before_a_length_do_not_change_it() {
    let long_length = "invalid length for network: Network length 33 is too long for Ipv4 (maximum: 32)";
    for (front, back, printed) in [
        ("10.0.0.0/", "8", "10.0.0.0/8"),
        ("10.0.0.0/+", "8", "10.0.0.0/8"),
        ("0.0.0.0/", "", "0.0.0.0/0"),
        ("10.0.0.0/", "33", long_length),
    ] {
        is_read_as_ipv4(&long(front, '0', back), printed);
    }
    for (front, back, printed) in [("2001:db8::/", "32", "2001:db8::/32"), ("::1/", "128", "::1")] {
        is_read_as_ipv6(&long(front, '0', back), printed);
    }
}

#[test]
fn a_long_text_that_is_no_length_is_refused() {
    let message = "couldn't parse length in network: invalid length text";
    for (middle, back) in [('1', ""), ('0', "256"), ('0', "x"), ('+', "8"), (' ', "8")] {
        is_read_as_ipv4(&long("10.0.0.0/", middle, back), message);
        is_read_as_ipv6(&long("::/", middle, back), message);
    }
}

#[test]
fn a_long_text_that_is_no_address_is_refused() {
    let ipv4 = "couldn't parse address in network: invalid IPv4 address syntax";
    let ipv6 = "couldn't parse address in network: invalid IPv6 address syntax";
    let either = "couldn't parse address in network: invalid IP address syntax";
    for (front, middle, back) in [
        ("", '/', ""),
        ("10.0.0.0", '/', "8"),
        ("", ' ', "10.0.0.0/8"),
        ("", '0', ".0.0.0"),
        ("", '0', ""),
        ("", '0', "::"),
        ("1", '.', "/8"),
        ("", ':', ""),
        ("::", ':', "1/128"),
        ("any", 'y', ""),
    ] {
        let text = &long(front, middle, back);
        is_read_as::<Ipv4Cidr>(text, ipv4);
        is_read_as::<Ipv4Inet>(text, ipv4);
        is_read_as::<Ipv6Cidr>(text, ipv6);
        is_read_as::<Ipv6Inet>(text, ipv6);
        is_read_as_either(text, either);
        is_read_as::<Ipv4Addr>(text, "invalid IPv4 address syntax");
        is_read_as::<Ipv6Addr>(text, "invalid IPv6 address syntax");
        is_read_as::<IpAddr>(text, "invalid IP address syntax");
    }
}
