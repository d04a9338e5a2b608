//! What programs that use the crate `cidr` do, and did not compile or print otherwise over own addresses.

use cidr::errors::NetworkParseError;
use cidr::parsers::{parse_cidr_ignore_hostbits, parse_loose_ip};
use cidr::*;
use std::error::Error;
use std::net::{AddrParseError, IpAddr, Ipv4Addr};
use std::num::IntErrorKind;
use std::str::FromStr;

/// Bounds between the types of the traits.
fn holds_its_first<C: Cidr>(network: C) -> bool {
    let first = network.first_address();
    let host = <C::Address as Address>::Inet::new_host(first);
    network.contains(&first) && host.address() == first && network.iter().addresses().next() == Some(first)
}

fn network_of<I: Inet>(host: I) -> <I::Address as Address>::Cidr {
    let network = host.network();
    let _first: I = network.first();
    network
}

fn without_host_bits<C: Cidr>(text: &str) -> Result<C, NetworkParseError>
where
    C::Address: FromStr<Err = AddrParseError>,
{
    parse_cidr_ignore_hostbits(text, FromStr::from_str)
}

#[test]
fn generic_code_compiles_as_over_the_crate() {
    let network: Ipv4Cidr = without_host_bits("10.0.0.7/29").unwrap();
    assert!(holds_its_first(network));
    assert_eq!(network_of(network.last()), network);
    let hosts = network.iter();
    let copy = hosts;
    assert_eq!((hosts.count(), copy.addresses().count()), (8, 8));
}

#[test]
fn values_are_printed_as_by_the_crate() {
    let (network, host): (IpCidr, Ipv4Inet) = ("::1".parse().unwrap(), "10.0.0.1".parse().unwrap());
    assert_eq!(format!("{network} {network:#} {host:#}"), "::1 ::1/128 10.0.0.1/32");
    let pair = Ipv4InetPair::new(host, host).unwrap();
    assert_eq!(format!("{pair} {pair:#}"), "(10.0.0.1, 10.0.0.1) (10.0.0.1/32, 10.0.0.1/32)");
}

#[test]
fn errors_have_causes_and_kinds() {
    let error = "10.0.0.0/x".parse::<Ipv4Cidr>().unwrap_err();
    assert_eq!(error.source().unwrap().to_string(), "invalid digit found in string");
    match error {
        NetworkParseError::NetworkLengthParseError(cause) => assert_eq!(cause.kind(), &IntErrorKind::InvalidDigit),
        _ => panic!("{error}"),
    }
    let error: NetworkParseError = "10.0.0".parse::<Ipv4Addr>().unwrap_err().into();
    assert!(error.source().is_some_and(|cause| cause.is::<AddrParseError>()));
}

#[test]
fn addresses_are_those_of_the_language() {
    let address: IpAddr = parse_loose_ip("0x7f.1").unwrap();
    assert_eq!(IpCidr::from(address).to_string(), "127.0.0.1");
    assert_eq!((size_of::<Ipv6Cidr>(), size_of::<IpCidr>()), (17, 18));
}

/// The language's own names stay theirs where all of this crate's are imported.
#[test]
fn an_import_of_all_names_brings_no_address() {
    let address: std::net::Ipv6Addr = "::1".parse().unwrap();
    assert_eq!(Ipv6Cidr::new_host(address).first_address(), address);
}
