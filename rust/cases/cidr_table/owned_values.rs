//! A table whose values own memory.

use cidr::{Ipv4Addr, Ipv4Cidr};
use cidr_table::LpmTable;

/// The network of one address.
fn host(number: u32) -> Ipv4Cidr {
    Ipv4Cidr::new_host(Ipv4Addr::from_bits(number))
}

/// Five hundred rows with a hundred keys, and a string as the value of each.
#[test]
fn values_that_own_memory_stay_with_their_keys() {
    let rows: Vec<_> = (0..500).map(|i| (host(i * 7 % 100), format!("{} of {i}", i * 7 % 100))).collect();
    let table = LpmTable::from_rows(rows.into());
    assert_eq!(table.len(), 100);
    for (key, text) in table.iter() {
        let number = key.first_address().to_bits();
        // 43 is the inverse of 7 modulo 100
        assert_eq!(*text, format!("{number} of {}", 400 + number * 43 % 100));
    }
}
