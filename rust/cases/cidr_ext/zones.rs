//! Zones of reverse DNS from both ends, and the empty name.

use cidr::{IpCidr, Ipv6Cidr};
use cidr_ext::CidrReverseName;

#[test]
fn zones_are_counted_and_come_from_both_ends() {
    // [net.network_address.reverse_pointer for net in ip_network("192.0.2.128/30").subnets(new_prefix=32)]
    let zones = "192.0.2.128/30".parse::<IpCidr>().unwrap().reverse_zones();
    assert_eq!(zones.size_hint(), (4, Some(4)));
    let mut zones = "2001:db8::/33".parse::<Ipv6Cidr>().unwrap().reverse_zones();
    assert_eq!(zones.next_back().unwrap().as_str(), "7.8.b.d.0.1.0.0.2.ip6.arpa");
    assert_eq!(zones.size_hint(), (7, Some(7)));
    assert!(IpCidr::from_reverse_name("").is_none());
}
