//! The feature `bitstring`: the calls of that crate's trait.
#![cfg(feature = "bitstring")]

use bitstring::BitString;
use cidr::{AnyIpCidr, Ipv4Cidr, Ipv4Inet, Ipv6Cidr, Ipv6Inet};

#[test]
fn a_network_is_a_string_of_bits() {
    let mut network: Ipv4Cidr = "192.160.0.0/11".parse().unwrap();
    assert_eq!((network.len(), network.get(0), network.get(2)), (11, true, false));
    assert_eq!(network.shared_prefix_len(&"192.168.0.0/24".parse().unwrap()), 11);
    network.clip(2);
    network.append(true);
    network.set(0, false);
    network.flip(1);
    assert_eq!(network, "32.0.0.0/3".parse().unwrap());
    assert_eq!((<Ipv6Cidr as BitString>::null().len(), <AnyIpCidr as BitString>::null().len()), (0, 0));
    assert_eq!((BitString::len(&Ipv4Inet::new_host([10, 0, 0, 1].into())), <Ipv6Inet as BitString>::null().len()), (32, 0));
}
