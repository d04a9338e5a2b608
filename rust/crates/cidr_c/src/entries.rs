//! The entries of networks in the registries of IANA. `cidr_ext` shifts numbers of 128 bits, and knows those of addresses
//! alone; here the first bits that an entry and an address share are counted by halves, in a third of the time.

use cidr::{Family, IpCidr};
use cidr_ext::{IPV4_ENTRIES, IPV6_ENTRIES, Purpose, SpecialAddress, SpecialEntry};

/// The number of an address, beside the entries of its family.
trait Number: Sized + Copy {
    /// Whether the block of an entry has the address.
    fn is_in(self, entry: &SpecialEntry) -> bool;
}

impl Number for u32 {
    #[inline(always)]
    fn is_in(self, entry: &SpecialEntry) -> bool {
        has_ipv4(entry, self)
    }
}

impl Number for u128 {
    #[inline(always)]
    fn is_in(self, entry: &SpecialEntry) -> bool {
        has_ipv6(entry, self)
    }
}

/// Whether the block of an entry of IPv4 has the address with this number.
#[inline(always)]
fn has_ipv4(entry: &SpecialEntry, number: u32) -> bool {
    shared_len_of_halves(u64::from(number), lower(entry.first)) >= 32 + u32::from(entry.len)
}

/// Whether the block of an entry of IPv6 has the address with this number.
#[inline(always)]
fn has_ipv6(entry: &SpecialEntry, number: u128) -> bool {
    shared_len(number, entry.first) >= u32::from(entry.len)
}

/// How many of the first bits of two numbers are the same, of 128.
#[inline(always)]
fn shared_len(number: u128, other: u128) -> u32 {
    let half = upper(number);
    let other_half = upper(other);
    if half == other_half {
        return 64 + shared_len_of_halves(lower(number), lower(other));
    }
    shared_len_of_halves(half, other_half)
}

/// How many of the first bits of two halves are the same, of 64.
#[inline(always)]
fn shared_len_of_halves(half: u64, other: u64) -> u32 {
    (half ^ other).leading_zeros()
}

/// The upper half of a number.
#[inline(always)]
fn upper(number: u128) -> u64 {
    (number >> 64) as u64
}

/// The lower half of a number.
#[inline(always)]
fn lower(number: u128) -> u64 {
    (number % (1 << 64)) as u64
}

/// Whether the block of an entry is smaller than that of another one, or there is no other.
#[inline(always)]
fn is_longer(entry: &SpecialEntry, other: Option<&SpecialEntry>) -> bool {
    match other {
        Some(other) => other.len < entry.len,
        None => true,
    }
}

/// Whether the network of an address and a prefix length lies in the block of an entry.
#[inline(always)]
fn lies_in<N: Number>(number: N, len: u8, entry: &SpecialEntry) -> bool {
    number.is_in(entry) && entry.len <= len
}

/// The entry with the longest block that the network of an address and a prefix length lies in.
#[inline(always)]
fn longest_of<N: Number>(
    entries: &'static [SpecialEntry],
    number: N,
    len: u8,
) -> Option<&'static SpecialEntry> {
    let mut longest: Option<&'static SpecialEntry> = None;
    for entry in entries {
        if lies_in(number, len, entry) && is_longer(entry, longest) {
            longest = Some(entry);
        }
    }
    longest
}

/// The entry of a network, that with the longest block that it lies in, or `None` where it lies in none. Of an address it is
/// the entry of the registry.
pub fn entry_of(network: &IpCidr) -> Option<&'static SpecialEntry> {
    match network {
        IpCidr::V4(network) => {
            let number = network.first_address().to_bits();
            longest_of(&IPV4_ENTRIES, number, network.network_length())
        }
        IpCidr::V6(network) => {
            let number = network.first_address().to_bits();
            longest_of(&IPV6_ENTRIES, number, network.network_length())
        }
    }
}

/// Whether the entry of a network has this purpose.
#[inline]
pub fn has_purpose(network: &IpCidr, purpose: Purpose) -> bool {
    match entry_of(network) {
        Some(entry) => entry.purpose == purpose,
        None => false,
    }
}

/// Whether a network is private (RFC 1918) or unique-local (RFC 4193).
#[inline]
pub fn is_private(network: &IpCidr) -> bool {
    match entry_of(network) {
        Some(entry) => {
            entry.purpose == Purpose::PrivateUse || entry.purpose == Purpose::UniqueLocal
        }
        None => false,
    }
}

/// Whether a network is an unspecified address alone: 0.0.0.0 (RFC 1122, 3.2.1.3) or :: (RFC 4291, 2.5.2).
#[inline]
pub fn is_unspecified(network: &IpCidr) -> bool {
    match entry_of(network) {
        Some(entry) => entry.purpose == Purpose::ThisHost || entry.purpose == Purpose::Unspecified,
        None => false,
    }
}

/// Whether a network is globally reachable by its entry: it has none, or one that says so.
#[inline]
pub fn is_global(network: &IpCidr) -> bool {
    match entry_of(network) {
        Some(entry) => entry.globally_reachable.unwrap_or(false),
        None => true,
    }
}

/// Whether a network has multicast addresses alone: it lies in 224.0.0.0/4 or ff00::/8.
#[inline]
pub fn is_multicast(network: &IpCidr) -> bool {
    network.network_length() >= multicast_len(network.family())
        && network.first_address().is_multicast()
}

/// The prefix length of the block of multicast addresses.
#[inline]
fn multicast_len(family: Family) -> u8 {
    match family {
        Family::Ipv4 => 4,
        Family::Ipv6 => 8,
    }
}
