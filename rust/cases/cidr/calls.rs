//! What a closure that is handed to a parser is called for, and how often.

use cidr::errors::NetworkParseError;
use cidr::parsers::{
    parse_any_cidr, parse_any_cidr_full, parse_any_cidr_full_ignore_hostbits, parse_any_cidr_ignore_hostbits,
    parse_cidr, parse_cidr_full, parse_cidr_full_ignore_hostbits, parse_cidr_ignore_hostbits, parse_inet,
    parse_inet_full,
};
use cidr::{AddrParseError, IpAddr, IpCidr, Ipv4Addr, Ipv4Cidr, Ipv4Inet};
use std::cell::RefCell;
use std::str::FromStr;

/// Texts that are read or refused, each for another cause.
const TEXTS: [&str; 8] =
    ["10.0.0.1", "10.0.0.0/8", "10.0.0.1/8", "x", "x/8", "any/8", "10.0.0.1/x", "10.0.0.0/33"];

type Reader<'a, V, E> = &'a dyn Fn(&str) -> Result<V, E>;

/// The texts that a parser hands to its closure for addresses, and to that for texts with no slash.
fn handed<A, H, R>(
    parse: impl FnOnce(Reader<'_, A, AddrParseError>, Reader<'_, H, NetworkParseError>) -> R,
) -> [Vec<String>; 2]
where
    A: FromStr<Err = AddrParseError>,
    H: FromStr<Err = NetworkParseError>,
{
    let (addresses, hosts) = (RefCell::new(Vec::new()), RefCell::new(Vec::new()));
    let address = |part: &str| {
        addresses.borrow_mut().push(part.to_string());
        part.parse()
    };
    let host = |whole: &str| {
        hosts.borrow_mut().push(whole.to_string());
        whole.parse()
    };
    parse(&address, &host);
    [addresses.into_inner(), hosts.into_inner()]
}

/// How often the five forms with a closure for addresses call it, and the five that have both call each.
fn calls(text: &str) -> ([usize; 5], [[usize; 2]; 5]) {
    type A = Ipv4Addr;
    let plain = [
        handed::<A, Ipv4Cidr, _>(|address, _| parse_cidr::<Ipv4Cidr, _>(text, address)),
        handed::<A, Ipv4Cidr, _>(|address, _| parse_cidr_ignore_hostbits::<Ipv4Cidr, _>(text, address)),
        handed::<A, IpCidr, _>(|address, _| parse_inet::<Ipv4Inet, _>(text, address).map(|_| ())),
        handed::<IpAddr, IpCidr, _>(|address, _| parse_any_cidr(text, address)),
        handed::<IpAddr, IpCidr, _>(|address, _| parse_any_cidr_ignore_hostbits(text, address)),
    ];
    let full = [
        handed::<A, _, _>(|address, host| parse_cidr_full::<Ipv4Cidr, _, _>(text, address, host)),
        handed::<A, _, _>(|address, host| parse_cidr_full_ignore_hostbits::<Ipv4Cidr, _, _>(text, address, host)),
        handed::<A, _, _>(|address, host| parse_inet_full::<Ipv4Inet, _, _>(text, address, host).map(|_| ())),
        handed::<IpAddr, IpCidr, _>(|address, host| parse_any_cidr_full(text, address, host)),
        handed::<IpAddr, IpCidr, _>(|address, host| parse_any_cidr_full_ignore_hostbits(text, address, host)),
    ];
    (plain.map(|[addresses, _]| addresses.len()), full.map(|both| both.map(|texts| texts.len())))
}

#[test]
fn a_parser_is_called_once_and_for_any_not_by_the_forms_that_know_it() {
    for text in TEXTS {
        let of_full = if text.contains('/') { [1, 0] } else { [0, 1] };
        assert_eq!(calls(text), ([1; 5], [of_full; 5]), "at {text}");
    }
    assert_eq!(calls("any"), ([1, 1, 1, 0, 0], [[0, 1], [0, 1], [0, 1], [0, 0], [0, 0]]));
}

#[test]
fn a_parser_is_handed_what_stands_before_the_last_slash() {
    for (text, part) in
        [("localhost/x/8", "localhost/x"), ("/8", ""), ("10.0.0.0/8", "10.0.0.0"), ("10.0.0.0", "10.0.0.0")]
    {
        let [addresses, _] = handed::<_, IpCidr, _>(|address, _| parse_cidr::<Ipv4Cidr, _>(text, address));
        assert_eq!(addresses, [part], "{text}");
    }
}
