//! Names in reverse DNS.

use crate::codes::NOT_UTF8;
use crate::finding::put_found_network;
use crate::labels::print_name;
use crate::printing::print;
use crate::values::{CValue, ip_network_of};
use cidr_support::arrayvec::ArrayString;
use cidr::IpCidr;
use cidr_ext::CidrReverseName;

/// Writes the name in reverse DNS of the network of a host, and returns its length, at most 72; 0 where its prefix length
/// doesn't end at a label, or the value is no host.
#[inline]
pub fn pcidr_print_reverse_name(host: &CValue, out: &mut [u8]) -> usize {
    match ip_network_of(host) {
        Some(network) => print_name(&network, out),
        None => 0,
    }
}

/// Writes the name in reverse DNS of the zone at an index, counted from 0, of those that the network of a host is delegated
/// in: the networks inside it of the next prefix length that ends at a label, ascending. Returns its length, at most 72; 0
/// where there are no more zones than that, or the value is no host.
#[inline]
pub fn pcidr_print_reverse_zone(host: &CValue, index: usize, out: &mut [u8]) -> usize {
    let Some(network) = ip_network_of(host) else {
        return 0;
    };
    match zone_at(&network, index) {
        Some(name) => print(name.as_str(), out),
        None => 0,
    }
}

/// The name of the zone of a network at an index.
#[inline]
fn zone_at(network: &IpCidr, index: usize) -> Option<ArrayString<72>> {
    network.reverse_zones().nth(index)
}

/// Reads a name in reverse DNS: 0 and the network that has it in `out`, or the number of the error.
#[inline]
pub fn pcidr_read_reverse_name(text: &[u8], out: &mut CValue) -> u32 {
    let Ok(name) = core::str::from_utf8(text) else {
        return NOT_UTF8;
    };
    put_found_network(IpCidr::from_reverse_name(name), out)
}
