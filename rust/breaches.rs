//! A call that breaks the condition on its caller panics, in every build: what `conditions` has, call by call.

use cidr::{AnyIpCidr, BitString, End, FamilyCidr, IpInet, Ipv4Cidr, Ipv4Inet, Ipv6Inet, drive};
use cidr_sets::slices;
use cidr_table::{least_cover_in_place, LpmTable};
use std::panic::catch_unwind;

fn network(text: &str) -> Ipv4Cidr {
    text.parse().unwrap()
}

fn panics<T>(what: &str, call: impl FnOnce() -> T + std::panic::UnwindSafe) {
    assert!(catch_unwind(call).is_err(), "{what} returns");
}

#[test]
fn a_step_out_of_the_network() {
    let host: Ipv4Inet = "192.0.2.63/28".parse().unwrap();
    let first: Ipv6Inet = "2001:db8::/64".parse().unwrap();
    let either: IpInet = "192.0.2.63/28".parse().unwrap();
    assert_eq!((host - 15_u32).to_string(), "192.0.2.48/28");
    panics("+ u128", move || host + 1_u128);
    panics("+ u32", move || host + 1_u32);
    panics("- u32", move || host - 16_u32);
    panics("- u128", move || first - 1);
    panics("+ of either family", move || either + 1);
}

#[test]
fn a_bit_past_the_length() {
    let host: Ipv4Inet = "10.0.0.1/8".parse().unwrap();
    panics("get", || network("10.0.0.0/8").get(8));
    panics("set", || network("10.0.0.0/8").set(8, true));
    panics("flip", || network("10.0.0.0/8").flip(8));
    panics("append", || network("10.0.0.1").append(true));
    panics("get of a host", move || host.get(8));
    panics("get of `Any`", || AnyIpCidr::Any.get(0));
    panics("set of `Any`", || { AnyIpCidr::Any }.set(0, true));
    panics("append to a host network", || AnyIpCidr::from(network("10.0.0.1")).append(true));
}

#[test]
fn slices_of_other_lengths() {
    panics("drive", || {
        let mut addresses = network("10.0.0.0/30").iter().addresses();
        drive(&mut addresses, &[End::Front, End::Back], &mut [None; 3]);
    });
    panics("least_cover", || {
        let table: LpmTable<_, _> = [(network("10.0.0.0/8"), 1)].into_iter().collect();
        table.least_cover(&mut []);
    });
    panics("union", || {
        slices::union(&[network("10.0.0.0/8")], &[network("11.0.0.0/8")], &mut [Ipv4Cidr::null(); 1]);
    });
}

#[test]
fn lists_that_are_no_sets() {
    let descending = [network("12.0.0.0/8"), network("10.0.0.0/8")];
    let nested = [network("10.0.0.0/8"), network("10.1.0.0/16")];
    let halves = [network("10.0.0.0/9"), network("10.128.0.0/9")];
    panics("least_cover_in_place", move || least_cover_in_place(&mut { descending }));
    // A set: of other halves, and of half a network beside less.
    for set in [["10.128.0.0/9", "11.0.0.0/9"], ["10.0.0.0/9", "10.128.0.0/16"], ["10.0.0.0/16", "10.128.0.0/9"]] {
        let mut out = [Ipv4Cidr::null(); 2];
        slices::union(&set.map(network), &[], &mut out);
        assert_eq!(out, set.map(network));
    }
    for list in [descending, nested, halves] {
        panics("union", move || slices::union(&list, &[], &mut [Ipv4Cidr::null(); 4]));
        panics("intersection", move || slices::intersection(&list, &[], &mut [Ipv4Cidr::null(); 4]));
        panics("difference", move || slices::difference(&[], &list, &mut [Ipv4Cidr::null(); 4]));
        panics("complement_in", move || slices::complement_in(&list[0], &list, &mut [Ipv4Cidr::null(); 4]));
    }
}

#[test]
fn a_number_above_the_width() {
    panics("from_number", || Ipv4Cidr::from_number(1 << 32));
}
