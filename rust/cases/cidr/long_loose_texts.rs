//! Loose strings of IPv4 of a hundred thousand characters.

use crate::long;
use cidr::parsers::{inet_addr, parse_short_ipv4_address_as_cidr};
use cidr::Ipv4Addr;

#[test]
fn leading_zeros_do_not_change_a_number() {
    for (front, back, octets) in [
        ("+", "10", [0, 0, 0, 10]),
        ("", "12", [0, 0, 0, 10]),
        ("0x", "1", [0, 0, 0, 1]),
        ("0X", "a.0377", [10, 0, 0, 255]),
        ("", "0", [0, 0, 0, 0]),
    ] {
        assert_eq!(inet_addr(&long(front, '0', back)), Some(Ipv4Addr::from(octets)), "at {back}");
    }
    assert!(parse_short_ipv4_address_as_cidr(&long("10.", '0', "9")).is_ok());
}

#[test]
fn a_long_text_that_spells_nothing_is_refused() {
    for (front, middle, back) in [
        ("", '.', ""),
        ("1", '.', "1"),
        ("1", '0', ""),
        ("0x1", '0', ""),
        ("01", '0', ""),
        ("", '0', "8"),
        ("", '+', "1"),
    ] {
        assert_eq!(inet_addr(&long(front, middle, back)), None, "at {front} {back}");
    }
}
