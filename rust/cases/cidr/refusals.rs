//! Each parser with closures that return an error for every string, one that no other part of it returns.

use cidr::errors::NetworkParseError;
use cidr::parsers::{
    parse_any_cidr, parse_any_cidr_full, parse_any_cidr_full_ignore_hostbits, parse_any_cidr_ignore_hostbits,
    parse_cidr, parse_cidr_full, parse_cidr_full_ignore_hostbits, parse_cidr_ignore_hostbits, parse_inet,
    parse_inet_full,
};
use cidr::{AddrParseError, IpAddr, IpCidr, Ipv4Addr, Ipv4Cidr, Ipv4Inet, Ipv6Addr};
use std::fmt::Display;
use std::str::FromStr;

/// The error of the parsers of addresses that refuse, which is that of another family.
const ADDRESS: &str = "couldn't parse address in network: invalid IPv6 address syntax";

/// The error of the host parser that refuses.
const HOST: &str = "couldn't parse length in network: invalid length text";

const HOST_PART: &str = "host part of address was not zero";

/// Refuses every text.
fn refuse_ipv4(_text: &str) -> Result<Ipv4Addr, AddrParseError> {
    "".parse::<Ipv6Addr>().map(|_| Ipv4Addr::from_bits(0))
}

/// Refuses every text.
fn refuse_ip(_text: &str) -> Result<IpAddr, AddrParseError> {
    "".parse::<Ipv6Addr>().map(IpAddr::V6)
}

/// Refuses every text.
fn refuse_host<V: FromStr<Err = NetworkParseError>>(_text: &str) -> Result<V, NetworkParseError> {
    "10.0.0.0/x".parse()
}

/// Refuses the host part of every text.
fn refuse_host_part<V>(_text: &str) -> Result<V, NetworkParseError> {
    Err(NetworkParseError::InvalidHostPart)
}

/// What is printed of a value or an error.
fn printed<V: Display>(read: Result<V, NetworkParseError>) -> String {
    read.map_or_else(|error| error.to_string(), |value| value.to_string())
}

#[test]
fn what_the_parser_of_addresses_refuses_is_refused() {
    for (text, any) in [
        ("any", "any"),
        ("x", ADDRESS),
        ("x/8", ADDRESS),
        ("10.0.0.1", ADDRESS),
        ("10.0.0.1/8", ADDRESS),
    ] {
        let found = [
            printed::<Ipv4Cidr>(parse_cidr(text, refuse_ipv4)),
            printed::<Ipv4Cidr>(parse_cidr_ignore_hostbits(text, refuse_ipv4)),
            printed::<Ipv4Inet>(parse_inet(text, refuse_ipv4)),
            printed(parse_any_cidr(text, refuse_ip)),
            printed(parse_any_cidr_ignore_hostbits(text, refuse_ip)),
        ];
        assert_eq!(found, [ADDRESS, ADDRESS, ADDRESS, any, any], "at {text}");
    }
}

/// Asserts this of the five forms with two parsers, each of which refuses, the host parser with this error.
fn try_refused(
    error: &str,
    network: fn(&str) -> Result<Ipv4Cidr, NetworkParseError>,
    host: fn(&str) -> Result<Ipv4Inet, NetworkParseError>,
    either: fn(&str) -> Result<IpCidr, NetworkParseError>,
) {
    for (text, wanted, any) in [
        ("any", error, "any"),
        ("x", error, error),
        ("x/8", ADDRESS, ADDRESS),
        ("10.0.0.1", error, error),
        ("10.0.0.1/8", ADDRESS, ADDRESS),
    ] {
        let found = [
            printed(parse_cidr_full(text, refuse_ipv4, network)),
            printed(parse_cidr_full_ignore_hostbits(text, refuse_ipv4, network)),
            printed(parse_inet_full(text, refuse_ipv4, host)),
            printed(parse_any_cidr_full(text, refuse_ip, either)),
            printed(parse_any_cidr_full_ignore_hostbits(text, refuse_ip, either)),
        ];
        assert_eq!(found, [wanted, wanted, wanted, any, any], "at {text}");
    }
}

#[test]
fn what_the_host_parser_refuses_is_refused_with_its_error() {
    try_refused(HOST, refuse_host, refuse_host, refuse_host);
    try_refused(HOST_PART, refuse_host_part, refuse_host_part, refuse_host_part);
}
