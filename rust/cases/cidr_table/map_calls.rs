//! Calls that every map has, and all rows that match, on a table of either family.

use cidr::{AnyIpCidr, BitString};
use cidr_table::alloc::Global;
use cidr_table::LpmTable;

/// A table of networks with a number each.
type Routes = LpmTable<AnyIpCidr, u32>;

fn network(text: &str) -> AnyIpCidr {
    text.parse().unwrap()
}

/// The table after these inserts, all of new keys.
fn filled(rows: &[(&str, u32)]) -> Routes {
    let mut routes = Routes::new(Global);
    for (key, value) in rows {
        assert_eq!(routes.insert(network(key), *value), Ok(None));
    }
    routes
}

const INSERTED: &[(&str, u32)] = &[("0.0.0.0/0", 1), ("any", 2), ("10.0.0.0/8", 3)];

/// The values of the rows that match the network, in order.
fn matched(routes: &Routes, text: &str) -> Vec<u32> {
    let mut found = routes.matches(&network(text));
    let values = found.by_ref().map(|row| row.1).collect();
    assert!(found.next().is_none());
    values
}

#[test]
fn matches_are_all_keys_that_begin_the_asked_bits_the_shortest_first() {
    let routes = filled(&[
        ("0.0.0.0/0", 1),
        ("any", 2),
        ("10.0.0.0/8", 3),
        ("10.0.0.0/9", 4),
        ("10.128.0.0/9", 5),
        ("10.1.2.3", 6),
    ]);
    assert_eq!(matched(&routes, "10.1.2.3"), [2, 1, 3, 4, 6]);
    assert_eq!(matched(&routes, "::1"), [2]);
}

#[test]
fn rows_are_removed_by_a_test_by_their_network_or_all() {
    let mut routes = filled(INSERTED);
    let outer = network("10.0.0.0/7");
    assert_eq!(routes.remove_inside(&outer), 1);
    assert_eq!(routes.remove_inside(&outer), 0);
    assert!(!routes.contains_key(&network("10.0.0.0/8")));
    assert!(routes.contains_key(&network("any")));
    routes.retain(|row| row.1 == 1);
    assert_eq!(routes, filled(&[("0.0.0.0/0", 1)]));
    routes.clear();
    assert!(routes.is_empty());
}

#[test]
fn the_first_and_the_last_row_are_told() {
    let routes = filled(INSERTED);
    assert_eq!(routes.first_key_value(), Some((&network("any"), &2)));
    assert_eq!(routes.last_key_value(), Some((&network("10.0.0.0/8"), &3)));
    let none = Routes::new(Global);
    assert!(none.first_key_value().is_none() && none.last_key_value().is_none());
}

#[test]
fn keys_and_values_are_those_of_the_rows_from_both_ends() {
    let routes = filled(INSERTED);
    let (first, middle, last) = (network("any"), network("0.0.0.0/0"), network("10.0.0.0/8"));
    let mut keys = routes.keys();
    let found = [keys.next(), keys.next_back(), keys.next(), keys.next_back()];
    assert_eq!(found, [Some(&first), Some(&last), Some(&middle), None]);
    let mut values = routes.values();
    let found = [values.next(), values.next_back(), values.next(), values.next()];
    assert_eq!(found, [Some(&2), Some(&3), Some(&1), None]);
    let mut rows = 0;
    for row in &routes {
        rows |= row.1;
    }
    assert_eq!(rows, 3);
}

#[test]
fn a_clone_is_equal_until_a_row_differs() {
    let mut routes = filled(INSERTED);
    let copy = routes.try_clone().unwrap();
    assert_eq!(routes, copy);
    let last = network("10.0.0.0/8");
    assert_eq!(routes.set(last, 4), Ok(Some(3)));
    assert!(routes != copy && copy.get(&last) == Some(&3));
    assert_eq!(routes.set(last, 3), Ok(Some(4)));
    assert_eq!(routes, copy);
    assert_eq!(routes.remove(&network("any")), Some(2));
    assert_ne!(routes, copy);
}

#[test]
fn each_value_is_written_once_in_the_order_of_the_keys() {
    let mut routes = filled(INSERTED);
    let mut calls = 0_u32;
    routes.for_each_mut(|key, value| {
        calls += 10;
        *value = (*value + calls) * key.len() as u32;
    });
    assert_eq!(calls, 30);
    // 10 + 2 of `any`, 20 + 1 and 30 + 3, each by the number of bits of its key
    assert_eq!(routes, filled(&[("any", 0), ("0.0.0.0/0", 21), ("10.0.0.0/8", 297)]));
}

#[test]
fn rows_by_value_ascend_from_both_ends() {
    let mut rows = filled(INSERTED).into_iter();
    assert_eq!(rows.len(), 3);
    let found = [rows.next(), rows.next_back(), rows.next(), rows.next_back(), rows.next()];
    let wanted = [
        Some((network("any"), 2)),
        Some((network("10.0.0.0/8"), 3)),
        Some((network("0.0.0.0/0"), 1)),
        None,
        None,
    ];
    assert_eq!(found, wanted);
    assert_eq!(rows.len(), 0);
    let mut sum = 0;
    for (_, value) in filled(INSERTED) {
        sum += value;
    }
    assert_eq!(sum, 6);
}
