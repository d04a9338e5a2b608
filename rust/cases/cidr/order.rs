//! `PartialOrd`, and the operators that are written with it, have the order of `Ord`.

use crate::read;
use cidr::{Ipv4Addr, Ipv4Cidr, Ipv6Addr, Ipv6Cidr, Ipv6Inet};
use std::cmp::Ordering;
use std::fmt::Debug;
use std::str::FromStr;

/// Asserts that the values of two strings are in this order.
fn are_ordered<V: Ord + FromStr<Err: Debug>>(one: &str, other: &str, wanted: Ordering) {
    let (one, other) = (read::<V>(one), read::<V>(other));
    assert_eq!(one.partial_cmp(&other), Some(wanted));
    assert_eq!((one < other, one > other), (wanted == Ordering::Less, wanted == Ordering::Greater));
}

#[test]
fn operators_have_the_order_of_ord() {
    let low = "::ffff:ffff:ffff:ffff";
    are_ordered::<Ipv6Addr>("0:0:0:1::", low, Ordering::Greater);
    are_ordered::<Ipv6Addr>(low, low, Ordering::Equal);
    are_ordered::<Ipv4Addr>("9.255.255.255", "10.0.0.0", Ordering::Less);
    are_ordered::<Ipv6Cidr>("::/0", "::/1", Ordering::Less);
    are_ordered::<Ipv6Cidr>("8000::/1", "::/128", Ordering::Greater);
    are_ordered::<Ipv6Cidr>("::/1", "0::/1", Ordering::Equal);
    are_ordered::<Ipv4Cidr>("10.0.0.0/8", "10.0.0.0/9", Ordering::Less);
    are_ordered::<Ipv6Inet>("::1/9", "::1/9", Ordering::Equal);
}
