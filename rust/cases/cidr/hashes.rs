//! Equal values have equal hashes.

use crate::read;
use cidr::{
    AnyIpCidr, IpAddr, IpCidr, IpInet, IpInetPair, Ipv4Addr, Ipv4Cidr, Ipv4Inet, Ipv4InetPair, Ipv6Addr, Ipv6Cidr,
    Ipv6Inet, Ipv6InetPair,
};
use std::fmt::Debug;
use std::hash::{BuildHasher, BuildHasherDefault, DefaultHasher, Hash};
use std::str::FromStr;

/// Asserts that two values are equal, and so are their hashes.
fn are_alike<V: Hash + Eq + Debug>(one: V, other: V) {
    let hash = BuildHasherDefault::<DefaultHasher>::default();
    assert_eq!(one, other);
    assert_eq!(hash.hash_one(&one), hash.hash_one(&other), "{one:?}");
}

/// The same of the values of two strings.
fn are_read_alike<V: Hash + Eq + Debug + FromStr<Err: Debug>>(one: &str, other: &str) {
    are_alike::<V>(read(one), read(other));
}

#[test]
fn equal_values_hash_alike() {
    are_read_alike::<Ipv4Addr>("1.2.3.4", "1.2.3.4");
    are_read_alike::<Ipv6Addr>("::102:304", "::1.2.3.4");
    are_read_alike::<IpAddr>("::102:304", "::1.2.3.4");
    are_read_alike::<Ipv4Cidr>("10.0.0.0/8", "10.0.0.0/08");
    are_read_alike::<Ipv6Cidr>("::/8", "0:0::/08");
    are_read_alike::<IpCidr>("::/8", "0:0::/08");
    are_read_alike::<AnyIpCidr>("::/8", "0:0::/08");
    are_read_alike::<Ipv4Inet>("10.0.0.1/8", "10.0.0.1/08");
    are_read_alike::<Ipv6Inet>("::1/8", "0:0::1/08");
    are_read_alike::<IpInet>("::/8", "0:0::/08");
    let four = || Ipv4InetPair::new_from_addresses(read("10.0.0.1"), read("10.0.0.1"), 8).unwrap();
    are_alike(four(), four());
    let six = |one, other| Ipv6InetPair::new_from_addresses(read(one), read(other), 8).unwrap();
    are_alike(six("::1", "::2"), six("0::1", "0::2"));
    let either = |one, other| IpInetPair::new_from_addresses(read(one), read(other), 8).unwrap();
    are_alike(either("::1", "::2"), either("0::1", "0::2"));
}
