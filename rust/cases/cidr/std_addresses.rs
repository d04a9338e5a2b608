//! The addresses of `std::net`, which has its own parser: the same string gives the same address.

use crate::read;
use cidr::{IpAddr, Ipv4Addr, Ipv6Addr};
use std::fmt::Debug;
use std::net;
use std::str::FromStr;

/// Asserts that our address and theirs of a string are turned into each other.
fn are_same<A, S>(text: &str)
where
    A: FromStr<Err: Debug> + From<S> + Copy + Eq + Debug,
    S: FromStr<Err: Debug> + From<A> + Copy + Eq + Debug,
{
    let (ours, theirs) = (read::<A>(text), read::<S>(text));
    assert_eq!((A::from(theirs), S::from(ours)), (ours, theirs), "{text}");
}

#[test]
fn an_address_of_std_is_the_one_of_the_same_string() {
    for text in ["0.0.0.0", "192.0.2.1", "255.255.255.255"] {
        are_same::<Ipv4Addr, net::Ipv4Addr>(text);
    }
    for text in [
        "::",
        "2001:db8:0:4d9b:8f82:93cc:1a4a:4130",
        "::ffff:192.0.2.1",
        "ffff:ffff:ffff:ffff:ffff:ffff:ffff:ffff",
    ] {
        are_same::<Ipv6Addr, net::Ipv6Addr>(text);
    }
    // a mapped address stays one of IPv6
    for (text, is_ipv4) in [("192.0.2.1", true), ("2001:db8::1", false), ("::ffff:192.0.2.1", false)] {
        are_same::<IpAddr, net::IpAddr>(text);
        assert_eq!(IpAddr::from(read::<net::IpAddr>(text)).is_ipv4(), is_ipv4);
    }
}
