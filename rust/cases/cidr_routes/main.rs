//! States of routes by the use cases of RFC 6907, 7.1, and by RFC 6483, 4; prefix lists by the words of routers.

use cidr::{Ipv4Cidr, Ipv6Cidr};
use cidr_lookup::Keyed;
use cidr_routes::lists::{difference, permits, permitted, shadowed, Row};
use cidr_routes::{Payload, Payloads, Validity};
use cidr_sets::access::Action;
use cidr_support::alloc::Global;
use std::fmt::Debug;
use std::str::FromStr;

fn network<C: FromStr>(text: &str) -> C
where
    C::Err: Debug,
{
    text.parse().unwrap()
}

/// Payloads of these networks, greatest lengths and AS.
fn payloads<C: Keyed + FromStr>(rows: &[(&str, u8, u32)]) -> Payloads<C>
where
    C::Err: Debug,
{
    let payloads = rows.iter().map(|&(text, max_length, origin)| Payload { network: network(text), max_length, origin });
    let payloads: Vec<Payload<C>> = payloads.collect();
    Payloads::new(Global, cidr_support::vec::Vec::from_slice(Global, &payloads).unwrap()).unwrap()
}

#[test]
fn states_by_the_use_cases() {
    let one = payloads::<Ipv4Cidr>(&[("10.1.0.0/16", 20, 64496)]);
    let more_specific = payloads::<Ipv4Cidr>(&[("10.1.0.0/18", 20, 64496), ("10.1.64.0/18", 20, 64496)]);
    let of_no_as = payloads::<Ipv4Cidr>(&[("10.1.0.0/16", 32, 0)]);
    let also_of_no_as = payloads::<Ipv4Cidr>(&[("10.1.0.0/16", 32, 0), ("10.1.0.0/16", 20, 64496)]);
    let rows = [
        (&one, "10.1.0.0/16", Some(64496), Validity::Valid),
        (&one, "10.1.0.0/17", Some(64496), Validity::Valid),
        (&one, "10.1.0.0/20", Some(64496), Validity::Valid),
        (&one, "10.1.0.0/22", Some(64496), Validity::InvalidLength),
        (&one, "10.1.0.0/18", Some(64511), Validity::InvalidOrigin),
        (&one, "10.1.0.0/22", Some(64511), Validity::InvalidOrigin),
        (&one, "10.2.0.0/16", Some(64496), Validity::NotFound),
        (&one, "10.0.0.0/8", Some(64496), Validity::NotFound),
        (&more_specific, "10.1.0.0/17", Some(64496), Validity::NotFound),
        (&one, "10.2.0.0/16", None, Validity::NotFound),
        (&one, "10.1.0.0/16", None, Validity::InvalidOrigin),
        (&of_no_as, "10.1.0.0/24", Some(64496), Validity::InvalidOrigin),
        (&of_no_as, "10.1.0.0/24", Some(0), Validity::InvalidOrigin),
        (&also_of_no_as, "10.1.0.0/16", Some(64496), Validity::Valid),
    ];
    for (payloads, route, origin, state) in rows {
        assert_eq!(payloads.validity(&network(route), origin), state, "{route} {origin:?}");
    }
}

#[test]
fn states_of_ipv6() {
    let payloads = payloads::<Ipv6Cidr>(&[("2001:db8::/32", 48, 64496), ("2001:db8:1::/48", 64, 64497)]);
    for (route, origin, state) in [
        ("2001:db8::/32", 64496, Validity::Valid),
        ("2001:db8:1::/48", 64496, Validity::Valid),
        ("2001:db8:1::/64", 64497, Validity::Valid),
        ("2001:db8:1::/64", 64496, Validity::InvalidLength),
        ("2001:db8:2::/48", 64497, Validity::InvalidOrigin),
        ("2001:db9::/32", 64496, Validity::NotFound),
    ] {
        assert_eq!(payloads.validity(&network(route), Some(origin)), state, "{route} {origin}");
    }
}

#[test]
fn payloads_are_kept_once_and_cover_from_the_longest_on() {
    let rows = [("10.1.0.0/16", 24, 2), ("10.0.0.0/8", 16, 1), ("10.1.0.0/16", 24, 2), ("10.1.2.0/24", 24, 3), ("10.1.0.0/16", 20, 2)];
    let payloads = payloads::<Ipv4Cidr>(&rows);
    assert_eq!(payloads.as_slice().len(), 4);
    let covering: Vec<_> = payloads.covering(&network("10.1.2.0/23")).map(|it| (it.network.to_string(), it.max_length)).collect();
    assert_eq!(covering, [("10.1.0.0/16".to_string(), 24), ("10.1.0.0/16".to_string(), 20), ("10.0.0.0/8".to_string(), 16)]);
}

fn row(action: Action, text: &str, low: u8, high: u8) -> Row<Ipv4Cidr> {
    Row { action, network: network(text), low, high }
}

#[test]
fn the_first_row_that_is_about_a_network_decides() {
    let rows = [row(Action::Deny, "10.2.0.0/16", 16, 32), row(Action::Permit, "10.0.0.0/8", 16, 24)];
    for (text, permitted) in [
        ("10.1.0.0/16", true),
        ("10.1.2.0/24", true),
        ("10.1.2.0/25", false),
        ("10.0.0.0/8", false),
        ("10.2.3.0/24", false),
        ("11.0.0.0/16", false),
    ] {
        assert_eq!(permits(&rows, &network(text)), permitted, "{text}");
    }
}

#[test]
fn lists_that_are_written_otherwise_permit_the_same() {
    let whole = [row(Action::Permit, "10.0.0.0/8", 9, 24)];
    let halves = [
        row(Action::Permit, "10.128.0.0/9", 9, 24),
        row(Action::Permit, "10.0.0.0/9", 9, 20),
        row(Action::Permit, "10.0.0.0/9", 21, 24),
    ];
    assert!(difference(Global, &whole, &halves).unwrap().is_none());
    let found = difference(Global, &whole, &halves[..2]).unwrap().unwrap();
    assert_eq!((found.network.to_string(), found.len, found.by_first), ("10.0.0.0/9".to_string(), 21, true));
}

#[test]
fn rows_that_several_earlier_ones_cover_decide_nothing() {
    let rows = [
        row(Action::Permit, "10.0.0.0/9", 16, 24),
        row(Action::Deny, "10.128.0.0/9", 16, 20),
        row(Action::Permit, "10.128.0.0/9", 18, 24),
        row(Action::Deny, "10.0.0.0/8", 16, 24),
        row(Action::Deny, "10.0.0.0/8", 16, 25),
        row(Action::Permit, "192.0.2.0/24", 26, 25),
    ];
    assert_eq!(shadowed(Global, &rows).unwrap().as_slice(), [3, 5]);
}

#[test]
fn what_is_permitted_has_lengths_joined() {
    let rows = [
        row(Action::Deny, "10.2.0.0/16", 24, 32),
        row(Action::Permit, "10.2.0.0/15", 15, 23),
        row(Action::Permit, "10.2.0.0/16", 16, 32),
        row(Action::Permit, "10.3.0.0/16", 24, 28),
    ];
    let found = permitted(Global, &rows).unwrap();
    let found: Vec<_> = found.as_slice().iter().map(|it| (it.network.to_string(), it.low, it.high)).collect();
    assert_eq!(found, [("10.2.0.0/15".to_string(), 15, 23), ("10.3.0.0/16".to_string(), 24, 28)]);
    assert!(permitted(Global, &rows[..1]).unwrap().is_empty());
}
