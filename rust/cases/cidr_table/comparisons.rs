//! How many comparisons a longest match makes, counted as they are made.

use cidr::{Ipv4Addr, Ipv4Cidr, Ipv4Inet, NetworkBits};
use cidr_table::alloc::Global;
use cidr_table::{longest_match, LpmTable, Probe, Rows};
use std::cmp::Ordering;

/// A probe that counts for all to see.
struct Counted<'a, C, V> {
    rows: Rows<'a, C, V>,
    comparisons: usize,
}

impl<C: Ord, V> Probe<C> for Counted<'_, C, V> {
    fn len(&self) -> usize {
        self.rows.len()
    }

    fn compare(&mut self, i: usize, key: &C) -> Ordering {
        self.comparisons += 1;
        self.rows.compare(i, key)
    }
}

/// The place of the longest match, and the comparisons that it took.
fn match_and_count<C: NetworkBits + Copy, V>(routes: &LpmTable<C, V>, asked: &C) -> (Option<usize>, usize) {
    let mut rows = Counted { rows: routes.probe(), comparisons: 0 };
    let place = longest_match(&mut rows, asked);
    (place, rows.comparisons)
}

/// The network of the first `len` bits of a number.
fn network(bits: u32, len: u8) -> Ipv4Cidr {
    Ipv4Inet::new(Ipv4Addr::from_bits(bits), len).unwrap().network()
}

#[test]
fn no_length_takes_more_comparisons_than_the_digits_of_the_rows() {
    // 0.0.0.0/1, 128.0.0.0/2, 192.0.0.0/3 and so on: the asked bits are all set, and no length can be skipped.
    let mut routes = LpmTable::new(Global);
    for len in 1_u8..=32 {
        let ones = u32::MAX << (32 - len as u32);
        assert_eq!(routes.insert(network(ones << 1, len), len), Ok(None));
        let (place, comparisons) = match_and_count(&routes, &network(u32::MAX, 32));
        let digits = usize::BITS - routes.len().leading_zeros();
        assert_eq!(place, None);
        assert!(comparisons <= 33 * digits as usize, "with {len} rows: {comparisons}");
    }
}

#[test]
fn lengths_that_no_key_has_are_skipped() {
    // 1,024 networks of 20 bits, 16 addresses apart in their third octet
    let mut routes = LpmTable::new(Global);
    for i in 0_u32..1024 {
        assert_eq!(routes.insert(network(i << 12, 20), i), Ok(None));
    }
    for i in 0_u32..1024 {
        let (place, comparisons) = match_and_count(&routes, &network(i << 12 | 0x7ff, 32));
        assert_eq!(place, Some(i as usize));
        assert!(comparisons <= 16, "at {i}: {comparisons}");
    }
    let (place, comparisons) = match_and_count(&routes, &network(0xc000_0201, 32));
    assert_eq!(place, None);
    assert!(comparisons <= 32, "nothing matches: {comparisons}");
}
