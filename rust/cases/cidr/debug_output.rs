//! What `Debug` prints of values: a derived one names the variant, or begins with the name of the type.

use crate::read;
use cidr::{AddrParseError, Address, AnyIpCidr, Cidr, Inet, InetPair, IpAddr, IpCidr, IpInet, Ipv4Addr, Ipv6Addr};
use std::fmt::Debug;
use std::str::FromStr;

/// Asserts that what `Debug` prints begins so.
fn begins(value: &impl Debug, beginning: &str) {
    let printed = format!("{value:?}");
    assert!(printed.starts_with(beginning), "{printed}");
}

/// Asserts that the pair of these addresses begins so, and its walks with their types.
fn pair_begins<A>((first, second): (&str, &str), len: u8, beginning: &str)
where
    A: Address + FromStr<Err = AddrParseError> + Debug,
    A::Cidr: Cidr<Address = A>,
    A::Inet: Inet<Address = A>,
    A::InetPair: InetPair<Address = A> + Debug,
{
    let pair = A::InetPair::new_from_addresses(read::<A>(first), read::<A>(second), len).unwrap();
    begins(&pair, beginning);
    begins(&pair.iter(), "InetIterator");
    begins(&pair.iter().addresses(), "InetAddressIterator");
}

#[test]
fn a_pair_or_a_walk_begins_with_its_variant_or_its_type() {
    let (six, four) = (("2001:db8::1", "2001:db8::3"), ("10.0.0.1", "10.0.0.3"));
    pair_begins::<Ipv6Addr>(six, 64, "Ipv6InetPair");
    pair_begins::<IpAddr>(six, 64, "V6(");
    pair_begins::<Ipv4Addr>(four, 8, "Ipv4InetPair");
    pair_begins::<IpAddr>(four, 8, "V4(");
}

#[test]
fn a_value_of_either_family_has_its_variant_and_its_length() {
    assert_eq!(format!("{:?}", read::<IpCidr>("10.0.0.0/8")), "V4(10.0.0.0/8)");
    assert_eq!(format!("{:?}", read::<AnyIpCidr>("::/128")), "V6(::/128)");
    assert_eq!(format!("{:?}", AnyIpCidr::Any), "Any");
    assert_eq!(format!("{:?}", read::<IpInet>("10.0.0.1")), "V4(10.0.0.1/32)");
}
