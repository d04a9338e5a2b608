//! A long list in no order, with repeats, beside a plain list of the last places.

use crate::next;
use cidr::{Ipv4Addr, Ipv4Cidr};
use cidr_table::alloc::Global;
use cidr_table::LpmTable;

/// How many networks the list has prefixes of.
const NETWORKS: u32 = 20_000;

/// How many prefixes the list has.
const PREFIXES: usize = 100_000;

/// The network of this number: its first sixteen bits are the number, so that they ascend with it.
fn octets_and_length(number: u32) -> ([u8; 4], u8) {
    let len = (16 + number % 17) as u8;
    let bits = u64::from(number % 65_536) * 65_536 + 0x5ac3;
    let kept = (bits >> (32 - len) << (32 - len)) as u32;
    (kept.to_be_bytes(), len)
}

fn network(number: u32) -> Ipv4Cidr {
    let (octets, len) = octets_and_length(number);
    Ipv4Cidr::new(Ipv4Addr::from(octets), len).unwrap()
}

/// Appends the prefix of this number: its length and the octets of its bits.
fn push_prefix(bytes: &mut Vec<u8>, number: u32) {
    let (octets, len) = octets_and_length(number);
    bytes.push(len);
    bytes.extend(&octets[..usize::from(len).div_ceil(8)]);
}

#[test]
fn a_long_list_in_no_order_is_loaded() {
    let mut bytes = Vec::new();
    let mut last = vec![None; NETWORKS as usize];
    let mut state = 20_261_123;
    for place in 0..PREFIXES {
        let number = next(&mut state) % NETWORKS;
        push_prefix(&mut bytes, number);
        last[number as usize] = Some(place);
    }
    let table = LpmTable::<Ipv4Cidr, usize>::load(Global, &bytes).unwrap();
    let rows = (0..NETWORKS).zip(last);
    let wanted: Vec<_> = rows.filter_map(|(number, place)| Some((network(number), place?))).collect();
    assert!(wanted.len() > 19_000);
    assert!(table.iter().eq(&wanted));
}
