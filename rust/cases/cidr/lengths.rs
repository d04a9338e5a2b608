//! Pairs with every prefix length that a byte holds, of the address of zeros and of that of ones, and how many addresses
//! pairs cover.

use cidr::errors::InetTupleError;
use cidr::{Family, InetPair, IpAddr, IpInetPair, Ipv4Addr, Ipv4InetPair, Ipv6Addr, Ipv6InetPair};

/// The addresses of either family whose bits are all alike.
fn of_bits(bits: u128) -> (Ipv4Addr, Ipv6Addr) {
    (Ipv4Addr::from_bits(bits as u32), Ipv6Addr::from_bits(bits))
}

/// Tries each length of a pair of these addresses, whose first `shared` bits are equal and no more.
fn try_pair<P: InetPair>(first: P::Address, second: P::Address, shared: u8, family: Family) {
    let width = if family == Family::Ipv4 { 32 } else { 128 };
    for len in 0..=255 {
        match P::new_from_addresses(first, second, len) {
            Ok(pair) => assert!(pair.network_length() == len && len <= shared, "at {len}"),
            Err(InetTupleError::NotInSharedNetwork) => assert!(shared < len && len <= width, "at {len}"),
            Err(error) => {
                let said = format!("Network length {len} is too long for {family:?} (maximum: {width})");
                assert!(len > width && error.to_string() == format!("invalid length for network: {said}"), "at {len}");
            }
        }
    }
}

#[test]
fn a_pair_has_each_length_that_its_addresses_share() {
    let ((zeros4, zeros6), (ones4, ones6)) = (of_bits(0), of_bits(u128::MAX));
    for (first, second, shared) in [(zeros4, zeros4, 32), (ones4, ones4, 32), (zeros4, ones4, 0)] {
        try_pair::<Ipv4InetPair>(first, second, shared, Family::Ipv4);
        try_pair::<IpInetPair>(IpAddr::V4(first), IpAddr::V4(second), shared, Family::Ipv4);
    }
    for (first, second, shared) in [(zeros6, zeros6, 128), (ones6, ones6, 128), (ones6, zeros6, 0)] {
        try_pair::<Ipv6InetPair>(first, second, shared, Family::Ipv6);
        try_pair::<IpInetPair>(IpAddr::V6(first), IpAddr::V6(second), shared, Family::Ipv6);
    }
}

#[test]
fn a_pair_of_two_families_has_no_length() {
    let (four, six) = (IpAddr::V4(of_bits(0).0), IpAddr::V6(of_bits(0).1));
    for len in 0..=255 {
        for (first, second) in [(four, six), (six, four)] {
            let made = IpInetPair::new_from_addresses(first, second, len);
            assert!(matches!(made, Err(InetTupleError::NotInSharedNetwork)), "at {len}");
        }
    }
}

/// How many addresses a pair covers.
fn covered<P: InetPair>(pair: &P) -> String {
    pair._covered_addresses().to_string()
}

/// Whether neither end of the pair's walk can be dropped, and the pair stays as it was.
fn stays<P: InetPair>(pair: P) -> bool {
    let mut stepped = pair;
    !stepped._inc_first() && !stepped._dec_second() && stepped == pair
}

#[test]
fn a_pair_covers_up_to_all_of_ipv6_and_a_reversed_one_nothing() {
    for (last, len, printed) in [
        (u128::MAX, 0, "340282366920938463463374607431768211456"),
        (u128::MAX / 2, 1, "170141183460469231731687303715884105728"),
        (0, 128, "1"),
    ] {
        let pair = Ipv6InetPair::new_from_addresses(Ipv6Addr::from_bits(0), Ipv6Addr::from_bits(last), len).unwrap();
        assert_eq!(covered(&pair), printed);
    }
    let (first, second) = (Ipv4Addr::new(10, 0, 0, 9), Ipv4Addr::new(10, 0, 0, 1));
    let reversed = Ipv4InetPair::new_from_addresses(first, second, 8).unwrap();
    assert_eq!(covered(&reversed), "0");
    assert!(stays(reversed));
}
