//! Sets in memory that the caller brings: in the room that they need, and in one less.

use cidr::errors::NetworkParseError;
use cidr::{Ipv4Cidr, Ipv6Cidr, NetworkBits};
use cidr_sets::alloc::Global;
use cidr_sets::{slices, NetworkSet};
use std::fmt::Debug;
use std::str::FromStr;

/// Two lists of networks and what `ipaddress.collapse_addresses` gives for operations on them. The complement is that
/// of the first, in 10.0.0.0/27 or 2001:db8::/123.
struct Row {
    these: &'static str,
    those: &'static str,
    union: &'static str,
    difference: &'static str,
    complement: &'static str,
}

/// First and last addresses, and the networks between them, as `ipaddress.summarize_address_range` gives them.
static RANGES: [(&str, &str, &str); 5] = [
    ("10.0.0.0", "10.0.0.255", "10.0.0.0/24"),
    ("10.0.0.7", "10.0.0.7", "10.0.0.7/32"),
    (
        "10.0.0.3",
        "10.0.0.17",
        "10.0.0.3/32 10.0.0.4/30 10.0.0.8/29 10.0.0.16/31",
    ),
    ("0.0.0.0", "255.255.255.255", "0.0.0.0/0"),
    ("10.0.0.8", "10.0.0.7", ""),
];

/// A network of one family.
trait Network: NetworkBits + Copy + Debug + FromStr<Err = NetworkParseError> {}

impl Network for Ipv4Cidr {}

impl Network for Ipv6Cidr {}

/// The networks of a string, which stand in it with a space between.
fn networks<C: Network>(text: &str) -> Vec<C> {
    text.split_whitespace().map(|word| word.parse().unwrap()).collect()
}

/// Asserts that a call writes these networks where they have room, and is refused where one has none.
fn is_written<C: Network>(text: &str, filler: C, call: impl Fn(&mut [C]) -> Option<usize>) {
    let wanted = networks::<C>(text);
    let mut out = vec![filler; wanted.len()];
    assert_eq!(call(&mut out), Some(wanted.len()), "{text}");
    assert_eq!(out, wanted);
    if let Some((_, short)) = out.split_first_mut() {
        assert_eq!(call(short), None, "{text}");
    }
}

/// Tries each call on the sets of a row.
fn try_row<C: Network>(row: &Row, whole: &str) {
    let whole = whole.parse::<C>().unwrap();
    let (these, those) = (networks::<C>(row.these), networks::<C>(row.those));
    let mut all = [these.as_slice(), &those].concat();
    let count = slices::from_networks(&mut all);
    assert_eq!(all[..count], networks::<C>(row.union));
    let these = NetworkSet::from_networks(Global, &these).unwrap();
    let those = NetworkSet::from_networks(Global, &those).unwrap();
    let (these, those) = (these.as_slice(), those.as_slice());
    is_written(row.difference, whole, |out| slices::difference(these, those, out));
    is_written(row.complement, whole, |out| slices::complement_in(&whole, these, out));
}

#[test]
fn sets_are_written_where_they_fit() {
    for row in &ROWS_V4 {
        try_row::<Ipv4Cidr>(row, "10.0.0.0/27");
    }
    for row in &ROWS_V6 {
        try_row::<Ipv6Cidr>(row, "2001:db8::/123");
    }
}

#[test]
fn ranges_are_written_where_they_fit() {
    let whole = "0.0.0.0/0".parse::<Ipv4Cidr>().unwrap();
    for (first, last, text) in &RANGES {
        let (first, last) = (first.parse().unwrap(), last.parse().unwrap());
        is_written(text, whole, |out| slices::from_range(first, last, out));
    }
}

static ROWS_V4: [Row; 5] = [
    Row {
        these: "10.0.0.8/29 10.0.0.0/28",
        those: "10.0.0.0/28 10.0.0.1/32 10.0.0.6/32 10.0.0.0/28 10.0.0.12/31",
        union: "10.0.0.0/28",
        difference: "",
        complement: "10.0.0.16/28",
    },
    Row {
        these: "",
        those: "10.0.0.16/28 10.0.0.0/31",
        union: "10.0.0.0/31 10.0.0.16/28",
        difference: "",
        complement: "10.0.0.0/27",
    },
    Row {
        these: "10.0.0.3/32 10.0.0.16/29 10.0.0.30/32 10.0.0.16/28 10.0.0.12/32 10.0.0.16/28",
        those: "10.0.0.16/28 10.0.0.8/29",
        union: "10.0.0.3/32 10.0.0.8/29 10.0.0.16/28",
        difference: "10.0.0.3/32",
        complement: "10.0.0.0/31 10.0.0.2/32 10.0.0.4/30 10.0.0.8/30 10.0.0.13/32 10.0.0.14/31",
    },
    Row {
        these: "10.0.0.16/29 10.0.0.16/28 10.0.0.16/30",
        those: "10.0.0.0/29 10.0.0.18/32 10.0.0.8/29 10.0.0.16/28 10.0.0.16/28 10.0.0.16/28",
        union: "10.0.0.0/27",
        difference: "",
        complement: "10.0.0.0/28",
    },
    Row {
        these: "10.0.0.20/31",
        those: "10.0.0.24/31 10.0.0.12/30 10.0.0.29/32 10.0.0.10/31 10.0.0.4/30",
        union: "10.0.0.4/30 10.0.0.10/31 10.0.0.12/30 10.0.0.20/31 10.0.0.24/31 10.0.0.29/32",
        difference: "10.0.0.20/31",
        complement: "10.0.0.0/28 10.0.0.16/30 10.0.0.22/31 10.0.0.24/29",
    },
];

static ROWS_V6: [Row; 5] = [
    Row {
        these: "2001:db8::10/125 2001:db8::/125 2001:db8::9/128 2001:db8::f/128 2001:db8::14/126 2001:db8::8/127",
        those: "2001:db8::/124 2001:db8::d/128 2001:db8::18/125 2001:db8::4/126 2001:db8::c/127",
        union: "2001:db8::/123",
        difference: "2001:db8::10/125",
        complement: "2001:db8::a/127 2001:db8::c/127 2001:db8::e/128 2001:db8::18/125",
    },
    Row {
        these: "",
        those: "2001:db8::10/124 2001:db8::12/128 2001:db8::8/126 2001:db8::10/126 2001:db8::12/127 2001:db8::2/127",
        union: "2001:db8::2/127 2001:db8::8/126 2001:db8::10/124",
        difference: "",
        complement: "2001:db8::/123",
    },
    Row {
        these: "2001:db8::10/124 2001:db8::c/126 2001:db8::/124 2001:db8::14/126 2001:db8::1f/128 2001:db8::8/127",
        those: "2001:db8::1c/127 2001:db8::/126 2001:db8::a/127 2001:db8::10/125 2001:db8::/124 2001:db8::/124",
        union: "2001:db8::/123",
        difference: "2001:db8::18/126 2001:db8::1e/127",
        complement: "",
    },
    Row {
        these: "2001:db8::4/126 2001:db8::8/125 2001:db8::1c/127 2001:db8::2/127 2001:db8::8/125 2001:db8::10/127",
        those: "2001:db8::18/125 2001:db8::1a/127 2001:db8::8/128",
        union: "2001:db8::2/127 2001:db8::4/126 2001:db8::8/125 2001:db8::10/127 2001:db8::18/125",
        difference: "2001:db8::2/127 2001:db8::4/126 2001:db8::9/128 2001:db8::a/127 2001:db8::c/126 2001:db8::10/127",
        complement: "2001:db8::/127 2001:db8::12/127 2001:db8::14/126 2001:db8::18/126 2001:db8::1e/127",
    },
    Row {
        these: "2001:db8::1e/127 2001:db8::14/126 2001:db8::1e/127 2001:db8::/125 2001:db8::/124",
        those: "2001:db8::10/125 2001:db8::/125",
        union: "2001:db8::/124 2001:db8::10/125 2001:db8::1e/127",
        difference: "2001:db8::8/125 2001:db8::1e/127",
        complement: "2001:db8::10/126 2001:db8::18/126 2001:db8::1c/127",
    },
];
