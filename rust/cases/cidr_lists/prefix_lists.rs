//! Prefix lists as devices write them.

use cidr::Ipv4Cidr;
use cidr_lists::prefix_lists::{in_order, push_rows, NumberedRows};
use cidr_routes::lists::Row;
use cidr_sets::access::Action;
use cidr_support::alloc::Global;
use cidr_support::vec::Vec;

/// A row as its words.
fn shown(row: &Row<Ipv4Cidr>) -> String {
    let action = if row.action == Action::Permit { "permit" } else { "deny" };
    format!("{action} {} {} {}", row.network, row.low, row.high)
}

/// The rows of a list of IPv4 in their order.
fn rows(name: &str, text: &str) -> std::vec::Vec<String> {
    let read = NumberedRows::of_text(Global, name.as_bytes(), text.as_bytes()).unwrap();
    in_order(Global, read.v4.as_slice()).unwrap().as_slice().iter().map(shown).collect()
}

#[test]
fn numbers_order_rows() {
    // FRR 8.4.4 prints of these, by `show running-config`: seq 3 deny 10.5.0.0/16, seq 7 permit 10.1.0.0/16,
    // seq 11 permit 10.3.0.0/16, seq 12 permit 10.2.0.0/16, seq 17 permit 10.6.0.0/16 ge 16
    let text = "\
ip prefix-list a seq 7 permit 10.1.0.0/16
ip prefix-list a permit 10.2.0.0/16
ip prefix-list a seq 11 permit 10.3.0.0/16
ip prefix-list a seq 3 permit 10.4.0.0/16 le 24
ip prefix-list a seq 3 deny 10.5.0.0/16
ip prefix-list a permit 10.6.0.0/16 ge 16
";
    let ordered = [
        "deny 10.5.0.0/16 16 16",
        "permit 10.1.0.0/16 16 16",
        "permit 10.3.0.0/16 16 16",
        "permit 10.2.0.0/16 16 16",
        "permit 10.6.0.0/16 16 32",
    ];
    assert_eq!(rows("a", text), ordered);
}

#[test]
fn rows_are_written_and_read_back() {
    // the words of FRR 8.4.4's `show running-config`, without the numbers
    let text = "\
ip prefix-list a permit 10.0.0.0/8
ip prefix-list a deny 10.0.0.0/8 le 24
ip prefix-list a permit 10.0.0.0/8 ge 16
ip prefix-list a permit 10.0.0.0/8 ge 16 le 24
ip prefix-list a deny 0.0.0.0/0 le 32
";
    let read = NumberedRows::of_text(Global, b"a", text.as_bytes()).unwrap();
    let rows = in_order(Global, read.v4.as_slice()).unwrap();
    let mut written = Vec::new(Global);
    push_rows(&mut written, b"a", rows.as_slice()).unwrap();
    assert_eq!(written.as_slice(), text.as_bytes());
}
