//! Errors as values: `Debug` prints the message that `Display` prints; those of bytes have it as a string too.

use cidr::errors::{CompactError, NetworkParseError, PrefixBytesError};
use cidr::{Family, IpAddr, Ipv4Addr, Ipv4Cidr, Ipv4Inet, Ipv4InetPair, Ipv6Addr, Ipv6Cidr};
use std::fmt::{Debug, Display};
use std::str::FromStr;

/// Asserts that both print this of an error.
fn prints<E: Debug + Display>(error: &E, message: &str) {
    assert_eq!((error.to_string().as_str(), format!("{error:?}").as_str()), (message, message));
}

/// Asserts that a string is no value of the type, with this message.
fn is_refused<V: FromStr<Err: Debug + Display> + Debug>(text: &str, message: &str) {
    prints(&text.parse::<V>().unwrap_err(), message);
}

#[test]
fn an_error_of_an_address_is_its_message() {
    is_refused::<Ipv4Addr>("x", "invalid IPv4 address syntax");
    is_refused::<Ipv6Addr>("x", "invalid IPv6 address syntax");
    is_refused::<IpAddr>("x", "invalid IP address syntax");
}

#[test]
fn an_error_of_a_network_or_of_a_length_is_its_message() {
    for (text, message) in [
        ("10.0.0.1/8", "host part of address was not zero"),
        ("10/8", "couldn't parse address in network: invalid IPv4 address syntax"),
        ("10.0.0.0/x", "couldn't parse length in network: invalid length text"),
        ("10.0.0.0/33", "invalid length for network: Network length 33 is too long for Ipv4 (maximum: 32)"),
    ] {
        is_refused::<Ipv4Cidr>(text, message);
    }
    let message = "invalid length for network: Network length 129 is too long for Ipv6 (maximum: 128)";
    is_refused::<Ipv6Cidr>("::/129", message);
    match "10.0.0.0/x".parse::<Ipv4Cidr>() {
        Err(NetworkParseError::NetworkLengthParseError(error)) => prints(&error, "invalid length text"),
        other => panic!("{other:?}"),
    }
    let error = Ipv4Inet::new(Ipv4Addr::new(1, 2, 3, 4), 200).unwrap_err();
    prints(&error, "Network length 200 is too long for Ipv4 (maximum: 32)");
}

#[test]
fn an_error_of_a_pair_is_its_message() {
    let (low, high) = (Ipv4Addr::new(10, 0, 0, 1), Ipv4Addr::new(11, 0, 0, 1));
    for (len, message) in [
        (8, "addresses not in shared network"),
        (33, "invalid length for network: Network length 33 is too long for Ipv4 (maximum: 32)"),
    ] {
        prints(&Ipv4InetPair::new_from_addresses(low, high, len).unwrap_err(), message);
    }
}

#[test]
fn each_error_of_bytes_has_a_message() {
    for (error, message) in [
        (CompactError::Truncated, "compact bytes end too early"),
        (CompactError::InvalidTag, "invalid tag"),
        (CompactError::InvalidAny, "invalid value: `any`"),
        (CompactError::InvalidFamily(Family::Ipv4), "invalid type: `Ipv4Addr`"),
        (CompactError::InvalidFamily(Family::Ipv6), "invalid type: `Ipv6Addr`"),
        (CompactError::InvalidHostPart, "host part of address was not zero"),
    ] {
        prints(&error, message);
        assert_eq!(error.to_text().as_str(), message);
    }
    for (error, message) in [
        (PrefixBytesError::LengthTooLong, "prefix length is too long"),
        (PrefixBytesError::Truncated, "prefix bytes end too early"),
    ] {
        prints(&error, message);
        assert_eq!(error.to_text().as_str(), message);
    }
}

#[test]
fn errors_of_bytes_are_equal_where_kind_and_family_are() {
    let ipv4 = CompactError::InvalidFamily(Family::Ipv4);
    let long = PrefixBytesError::LengthTooLong;
    assert_ne!(ipv4, CompactError::InvalidFamily(Family::Ipv6));
    assert_ne!(CompactError::Truncated, CompactError::InvalidTag);
    assert_ne!(long, PrefixBytesError::Truncated);
    assert_eq!(ipv4.clone(), ipv4);
    assert_eq!(long.clone(), long);
}
