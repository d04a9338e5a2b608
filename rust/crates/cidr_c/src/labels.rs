//! The names of networks in reverse DNS. `cidr_ext` writes the labels of IPv6 one by one; here two at a time are in a table.

use crate::printing::print;
use cidr_support::arrayvec::ArrayString;
use cidr::{IpCidr, Ipv6Cidr};
use cidr_ext::CidrReverseName;
use cidr_io::shown::hex_digit;

/// The two labels of each octet, the last one first, with a dot behind each.
const LABELS: &str = "\
    0.0.1.0.2.0.3.0.4.0.5.0.6.0.7.0.8.0.9.0.a.0.b.0.c.0.d.0.e.0.f.0.\
    0.1.1.1.2.1.3.1.4.1.5.1.6.1.7.1.8.1.9.1.a.1.b.1.c.1.d.1.e.1.f.1.\
    0.2.1.2.2.2.3.2.4.2.5.2.6.2.7.2.8.2.9.2.a.2.b.2.c.2.d.2.e.2.f.2.\
    0.3.1.3.2.3.3.3.4.3.5.3.6.3.7.3.8.3.9.3.a.3.b.3.c.3.d.3.e.3.f.3.\
    0.4.1.4.2.4.3.4.4.4.5.4.6.4.7.4.8.4.9.4.a.4.b.4.c.4.d.4.e.4.f.4.\
    0.5.1.5.2.5.3.5.4.5.5.5.6.5.7.5.8.5.9.5.a.5.b.5.c.5.d.5.e.5.f.5.\
    0.6.1.6.2.6.3.6.4.6.5.6.6.6.7.6.8.6.9.6.a.6.b.6.c.6.d.6.e.6.f.6.\
    0.7.1.7.2.7.3.7.4.7.5.7.6.7.7.7.8.7.9.7.a.7.b.7.c.7.d.7.e.7.f.7.\
    0.8.1.8.2.8.3.8.4.8.5.8.6.8.7.8.8.8.9.8.a.8.b.8.c.8.d.8.e.8.f.8.\
    0.9.1.9.2.9.3.9.4.9.5.9.6.9.7.9.8.9.9.9.a.9.b.9.c.9.d.9.e.9.f.9.\
    0.a.1.a.2.a.3.a.4.a.5.a.6.a.7.a.8.a.9.a.a.a.b.a.c.a.d.a.e.a.f.a.\
    0.b.1.b.2.b.3.b.4.b.5.b.6.b.7.b.8.b.9.b.a.b.b.b.c.b.d.b.e.b.f.b.\
    0.c.1.c.2.c.3.c.4.c.5.c.6.c.7.c.8.c.9.c.a.c.b.c.c.c.d.c.e.c.f.c.\
    0.d.1.d.2.d.3.d.4.d.5.d.6.d.7.d.8.d.9.d.a.d.b.d.c.d.d.d.e.d.f.d.\
    0.e.1.e.2.e.3.e.4.e.5.e.6.e.7.e.8.e.9.e.a.e.b.e.c.e.d.e.e.e.f.e.\
    0.f.1.f.2.f.3.f.4.f.5.f.6.f.7.f.8.f.9.f.a.f.b.f.c.f.d.f.e.f.f.f.";

/// Writes the name of a network, and returns its length; 0 where the prefix length doesn't end at a label.
#[inline]
pub fn print_name(network: &IpCidr, out: &mut [u8]) -> usize {
    match network {
        IpCidr::V4(network) => match network.reverse_name() {
            Some(name) => print(name.as_str(), out),
            None => 0,
        },
        IpCidr::V6(network) => print_ipv6_name(network, out),
    }
}

/// The same of an IPv6 network. The string stays where it was made.
fn print_ipv6_name(network: &Ipv6Cidr, out: &mut [u8]) -> usize {
    let len = network.network_length();
    if len % 4 != 0 {
        return 0;
    }
    let value = shifted_out(network.first_address().to_bits(), 128 - len);
    let mut name = ArrayString::new();
    push_labels(&mut name, value, len / 4);
    name.push_str("ip6.arpa");
    print(name.as_str(), out)
}

/// The number without so many of its last bits.
#[inline]
fn shifted_out(value: u128, count: u8) -> u128 {
    if count < 128 { value >> count } else { 0 }
}

/// Appends the last `count` labels of the number, the last one first, with a dot behind each.
#[inline]
fn push_labels(name: &mut ArrayString<72>, value: u128, count: u8) {
    if count > 1 {
        name.push_str(two_labels((value % 256) as u8));
        push_labels(name, value / 256, count - 2);
    } else if count == 1 {
        name.push(hex_digit((value % 16) as u8));
        name.push('.');
    }
}

/// The two labels of an octet, the last one first, with a dot behind each.
#[inline(always)]
pub fn two_labels(octet: u8) -> &'static str {
    let start = usize::from(octet) * 4;
    &LABELS[start..start + 4]
}
