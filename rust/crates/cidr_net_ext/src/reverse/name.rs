//! The name of a network in reverse DNS, written label by label.

use crate::address::AddressExt;
use cidr_support::arrayvec::ArrayString;
use cidr::names::{Cidr, Family};

/// The name of a network, or `None` where its prefix length doesn't end at a label.
pub(crate) fn name_of<C: Cidr>(network: &C) -> Option<ArrayString<72>>
where
    C::Address: AddressExt,
{
    let (family, len) = (network.family(), network.network_length());
    let width = label_bits(family);
    if len % width != 0 {
        return None;
    }
    let value = shifted_out(network.first_address().to_number(), family.len() - len);
    let mut name = ArrayString::new();
    push_labels(&mut name, family, value, len / width);
    push_domain(&mut name, family);
    Some(name)
}

/// The number of bits that a label stands for.
#[inline]
pub(crate) fn label_bits(family: Family) -> u8 {
    match family {
        Family::Ipv4 => 8,
        Family::Ipv6 => 4,
    }
}

/// The number without so many of its last bits.
#[inline]
fn shifted_out(value: u128, count: u8) -> u128 {
    if count < 128 { value >> count } else { 0 }
}

/// The number without the bits of its last label, and that label.
#[inline]
fn split_label(family: Family, value: u128) -> (u128, u8) {
    match family {
        Family::Ipv4 => (value / 256, (value % 256) as u8),
        Family::Ipv6 => (value / 16, (value % 16) as u8),
    }
}

/// Appends the last `count` labels of the number, the last one first, with a dot behind each.
#[inline]
fn push_labels(name: &mut ArrayString<72>, family: Family, value: u128, count: u8) {
    if count > 0 {
        let (rest, label) = split_label(family, value);
        push_label(name, family, label);
        push_labels(name, family, rest, count - 1);
    }
}

/// Appends the label and a dot.
#[inline]
fn push_label(name: &mut ArrayString<72>, family: Family, label: u8) {
    match family {
        Family::Ipv4 => push_decimal(name, label),
        Family::Ipv6 => name.push(char::from_digit(u32::from(label), 16).unwrap()),
    }
    name.push('.');
}

/// Appends the number in decimal.
fn push_decimal(text: &mut ArrayString<72>, n: u8) {
    if n >= 100 {
        text.push(char::from(b'0' + n / 100));
        text.push(char::from(b'0' + n / 10 % 10));
        text.push(char::from(b'0' + n % 10));
    } else if n >= 10 {
        text.push(char::from(b'0' + n / 10));
        text.push(char::from(b'0' + n % 10));
    } else {
        text.push(char::from(b'0' + n));
    }
}

/// Appends the domain of the names.
#[inline]
fn push_domain(name: &mut ArrayString<72>, family: Family) {
    name.push_str(domain(family));
}

/// The domain of the names.
#[inline]
pub(crate) fn domain(family: Family) -> &'static str {
    match family {
        Family::Ipv4 => "in-addr.arpa",
        Family::Ipv6 => "ip6.arpa",
    }
}
