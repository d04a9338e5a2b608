//! Lists that are read and printed in memory.

mod prefix_lists;

use cidr_lists::lines::HostBits;
use cidr_lists::sets::{Form, Sets};
use cidr_support::alloc::Global;

#[test]
fn a_list_is_printed_in_each_form() {
    // ipaddress: collapse_addresses of both gives 192.0.2.0/24, whose num_addresses is 256
    let text = b"192.0.2.0/25  # ours\n192.0.2.128-192.0.2.255\n";
    let sets = Sets::of_text(Global, HostBits::Refused, text).unwrap();
    for (form, printed) in [
        (Form::Networks, "192.0.2.0/24\n"),
        (Form::Ranges, "192.0.2.0-192.0.2.255\n"),
        (Form::Counts, "IPv4 256\nIPv6 0\n"),
    ] {
        assert_eq!(sets.to_text(Global, form).unwrap().as_slice(), printed.as_bytes());
    }
}
