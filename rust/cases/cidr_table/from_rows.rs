//! Tables made of rows in any order, beside the same rows inserted one by one.

use crate::next;
use cidr::{AnyIpCidr, Ipv4Addr, Ipv4Cidr};
use cidr_table::alloc::{Global, Vec as Rows};
use cidr_table::LpmTable;

/// The table of these rows has the wanted ones, in order, in the memory of the list.
fn makes(rows: &[(&str, u32)], wanted: &[(&str, u32)]) {
    let read = |row: &(&str, u32)| (row.0.parse::<AnyIpCidr>().unwrap(), row.1);
    let mut given = Rows::with_capacity(Global, rows.len() + 3).unwrap();
    for row in rows {
        given.push(read(row)).unwrap();
    }
    let capacity = given.capacity();
    let table = LpmTable::from_rows(given);
    assert_eq!(table.capacity(), capacity);
    assert_eq!(table.iter().copied().collect::<Vec<_>>(), wanted.iter().map(read).collect::<Vec<_>>());
}

#[test]
fn rows_are_a_table_and_of_equal_keys_the_last_one_counts() {
    let (low, high) = (("10.0.0.0/8", 1), ("10.0.0.0/9", 2));
    makes(&[], &[]);
    makes(&[low], &[low]);
    makes(&[low, high], &[low, high]);
    makes(&[high, low], &[low, high]);
    makes(&[high, ("10.0.0.0/9", 3)], &[("10.0.0.0/9", 3)]);
    let many = [
        ("10.1.0.0/16", 1),
        ("10.0.0.0/8", 2),
        ("2001:db8::/32", 3),
        ("10.1.0.0/16", 4),
        ("any", 5),
        ("10.0.0.0/8", 6),
        ("192.0.2.0/24", 7),
        ("10.1.0.0/16", 8),
    ];
    let of_many = [
        ("any", 5),
        ("10.0.0.0/8", 6),
        ("10.1.0.0/16", 8),
        ("192.0.2.0/24", 7),
        ("2001:db8::/32", 3),
    ];
    makes(&many, &of_many);
}

/// The network of one address.
fn host(number: u32) -> Ipv4Cidr {
    Ipv4Cidr::new_host(Ipv4Addr::from_bits(number))
}

/// The rows of the table of a list.
fn rows_of(list: impl Iterator<Item = (Ipv4Cidr, u32)>) -> Vec<(Ipv4Cidr, u32)> {
    let list: Vec<_> = list.collect();
    LpmTable::from_rows(list.into()).into_iter().collect()
}

#[test]
fn rows_that_ascend_descend_or_have_one_key_are_a_table() {
    for len in 0..70_u32 {
        let ascending: Vec<_> = (0..len).map(|i| (host(i), i)).collect();
        assert_eq!(rows_of((0..len).map(|i| (host(i), i))), ascending, "{len} rows ascend");
        let reversed: Vec<_> = (0..len).map(|i| (host(i), len - 1 - i)).collect();
        assert_eq!(rows_of((0..len).map(|i| (host(len - 1 - i), i))), reversed, "{len} rows descend");
        let last: Vec<_> = (0..len).last().map(|i| (host(1), i)).into_iter().collect();
        assert_eq!(rows_of((0..len).map(|i| (host(1), i))), last, "{len} rows of one key");
    }
}

#[test]
fn rows_in_random_order_are_as_if_inserted_in_turn() {
    let mut state = 1;
    for round in 0..300 {
        let keys = next(&mut state) % 90 + 1;
        let mut rows = Vec::new();
        let mut inserted = LpmTable::new(Global);
        for i in 0..next(&mut state) % 120 {
            let number = next(&mut state) % keys;
            let len = (24 + next(&mut state) % 9) as u8;
            let key = Ipv4Cidr::new(Ipv4Addr::from_bits(number >> (32 - len) << (32 - len)), len).unwrap();
            rows.push((key, i));
            inserted.set(key, i).unwrap();
        }
        assert_eq!(LpmTable::from_rows(rows.into()), inserted, "round {round}");
    }
}

#[test]
fn values_that_own_memory_stay_with_their_keys() {
    let rows: Vec<_> = (0..500).map(|i| (host(i * 7 % 100), format!("{} of {i}", i * 7 % 100))).collect();
    let table = LpmTable::from_rows(rows.into());
    assert_eq!(table.len(), 100);
    for (key, text) in table.iter() {
        let number = key.first_address().to_bits();
        // 43 is the inverse of 7 modulo 100
        assert_eq!(*text, format!("{number} of {}", 400 + number % 100 * 43 % 100));
    }
}

#[test]
fn many_rows_in_random_order_ascend() {
    let mut state = 7;
    let rows: Vec<_> = (0..100_000).map(|i| (host(next(&mut state)), i)).collect();
    let table = LpmTable::from_rows(rows.into());
    let keys: Vec<_> = table.keys().copied().collect();
    assert!(keys.windows(2).all(|pair| pair[0] < pair[1]));
    assert!(99_000 < table.len());
}
