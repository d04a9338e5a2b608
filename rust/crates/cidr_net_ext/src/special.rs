//! Addresses for special purposes.

use crate::address::AddressExt;
use crate::registry::{IPV4_ENTRIES, IPV6_ENTRIES, Purpose, SpecialEntry};
use cidr::names::Family;

/// What an address is for, by the IANA IPv4 and IPv6 Special-Purpose Address Registries (RFC 6890), as of May 2025.
///
/// The registries are [`IPV4_ENTRIES`](crate::IPV4_ENTRIES) and [`IPV6_ENTRIES`](crate::IPV6_ENTRIES). A block may be
/// inside another, and the longest one that contains the address is its entry: 192.0.0.9 is a globally reachable
/// anycast address, although 192.0.0.0/24 around it is not globally reachable. An IPv4-mapped address is `Ipv4Mapped`,
/// whatever its IPv4 address is for. A look-up compares the address with each entry of the registry, 26 of IPv4 and 25
/// of IPv6, and allocates nothing.
pub trait SpecialAddress: Sized + AddressExt {
    /// The longest entry of the registry whose block contains the address, or `None` for an address of no special
    /// purpose.
    ///
    /// ```
    /// # use cidr::names::*;
    /// # use cidr_ext::*;
    /// let entry = "192.0.0.9".parse::<IpAddr>()?.special_entry();
    /// assert_eq!(format!("{:?}", entry.map(|entry| entry.purpose)), "Some(PortControlAnycast)");
    /// assert_eq!(format!("{:?}", entry.map(|entry| entry.rfc)), "Some(7723)");
    /// assert!("8.8.8.8".parse::<IpAddr>()?.special_entry().is_none());
    /// # Ok::<(), Box<dyn std::error::Error>>(())
    /// ```
    #[inline]
    fn special_entry(self) -> Option<&'static SpecialEntry> {
        let family = self.family();
        longest_match(entries(family), family.len(), self.to_number())
    }

    /// Whether the entry of the address has this purpose.
    ///
    /// ```
    /// # use cidr::names::*;
    /// # use cidr_ext::*;
    /// let address = "198.19.0.1".parse::<IpAddr>()?;
    /// assert!(address.has_purpose(Purpose::Benchmarking));
    /// # Ok::<(), Box<dyn std::error::Error>>(())
    /// ```
    #[inline]
    fn has_purpose(self, purpose: Purpose) -> bool {
        match self.special_entry() {
            Some(entry) => entry.purpose == purpose,
            None => false,
        }
    }

    /// Whether the address is globally reachable by the registry: it has no entry, or one with "True" in this column.
    /// "N/A", as for 6to4 and Teredo, is not enough.
    ///
    /// It says nothing of whether the address is allocated, and is true for multicast addresses too.
    ///
    /// ```
    /// # use cidr::names::*;
    /// # use cidr_ext::*;
    /// assert!("8.8.8.8".parse::<IpAddr>()?.is_global());
    /// assert!(!("100.64.0.1".parse::<IpAddr>()?.is_global()));
    /// assert!("64:ff9b::8.8.8.8".parse::<IpAddr>()?.is_global());
    /// assert!(!("64:ff9b:1::8.8.8.8".parse::<IpAddr>()?.is_global()));
    /// # Ok::<(), Box<dyn std::error::Error>>(())
    /// ```
    #[inline]
    fn is_global(self) -> bool {
        match self.special_entry() {
            Some(entry) => entry.globally_reachable.unwrap_or(false),
            None => true,
        }
    }

    /// Whether the address is private: in 10.0.0.0/8, 172.16.0.0/12 or 192.168.0.0/16 (RFC 1918), or unique-local, in
    /// fc00::/7 (RFC 4193).
    ///
    /// ```
    /// # use cidr::names::*;
    /// # use cidr_ext::*;
    /// assert!("172.31.255.255".parse::<IpAddr>()?.is_private());
    /// assert!("fd00::1".parse::<IpAddr>()?.is_private());
    /// assert!(!("100.64.0.1".parse::<IpAddr>()?.is_private()));
    /// # Ok::<(), Box<dyn std::error::Error>>(())
    /// ```
    #[inline]
    fn is_private(self) -> bool {
        self.has_purpose(Purpose::PrivateUse) || self.has_purpose(Purpose::UniqueLocal)
    }

    /// Whether the address is for loopback: in 127.0.0.0/8 (RFC 1122, 3.2.1.3), or ::1 (RFC 4291, 2.5.3).
    ///
    /// ```
    /// # use cidr::names::*;
    /// # use cidr_ext::*;
    /// assert!("127.1.2.3".parse::<IpAddr>()?.is_loopback());
    /// # Ok::<(), Box<dyn std::error::Error>>(())
    /// ```
    #[inline]
    fn is_loopback(self) -> bool {
        self.has_purpose(Purpose::Loopback)
    }

    /// Whether the address is a unicast address of one link: in 169.254.0.0/16 (RFC 3927), or in fe80::/10 (RFC 4291,
    /// 2.5.6).
    ///
    /// ```
    /// # use cidr::names::*;
    /// # use cidr_ext::*;
    /// assert!("fe80::1".parse::<IpAddr>()?.is_link_local());
    /// # Ok::<(), Box<dyn std::error::Error>>(())
    /// ```
    #[inline]
    fn is_link_local(self) -> bool {
        self.has_purpose(Purpose::LinkLocal)
    }

    /// Whether the address is for documentation: in 192.0.2.0/24, 198.51.100.0/24 or 203.0.113.0/24 (RFC 5737), in
    /// 2001:db8::/32 (RFC 3849) or in 3fff::/20 (RFC 9637).
    ///
    /// ```
    /// # use cidr::names::*;
    /// # use cidr_ext::*;
    /// assert!("3fff::1".parse::<IpAddr>()?.is_documentation());
    /// # Ok::<(), Box<dyn std::error::Error>>(())
    /// ```
    #[inline]
    fn is_documentation(self) -> bool {
        self.has_purpose(Purpose::Documentation)
    }

    /// Whether the address is unspecified: 0.0.0.0 (RFC 1122, 3.2.1.3), or :: (RFC 4291, 2.5.2).
    ///
    /// ```
    /// # use cidr::names::*;
    /// # use cidr_ext::*;
    /// assert!("::".parse::<IpAddr>()?.is_unspecified());
    /// assert!(!("0.0.0.1".parse::<IpAddr>()?.is_unspecified()));
    /// # Ok::<(), Box<dyn std::error::Error>>(())
    /// ```
    #[inline]
    fn is_unspecified(self) -> bool {
        self.has_purpose(Purpose::ThisHost) || self.has_purpose(Purpose::Unspecified)
    }

    /// Whether the address is a multicast address: in 224.0.0.0/4 (RFC 5771), or in ff00::/8 (RFC 4291, 2.7). These are
    /// not in the registries, and it looks at the first bits alone.
    ///
    /// ```
    /// # use cidr::names::*;
    /// # use cidr_ext::*;
    /// assert!("239.255.255.255".parse::<IpAddr>()?.is_multicast());
    /// assert!(!("240.0.0.0".parse::<IpAddr>()?.is_multicast()));
    /// assert!("ff02::1".parse::<IpAddr>()?.is_multicast());
    /// # Ok::<(), Box<dyn std::error::Error>>(())
    /// ```
    #[inline]
    fn is_multicast(self) -> bool {
        match self.family() {
            Family::Ipv4 => self.to_number() >> 28 == 0b1110,
            Family::Ipv6 => self.to_number() >> 120 == 0xff,
        }
    }
}

impl<A: AddressExt> SpecialAddress for A {}

impl SpecialEntry {
    /// Whether the block contains the address with this number.
    #[inline]
    fn contains(&self, width: u8, number: u128) -> bool {
        let rest = u32::from(width.saturating_sub(self.len));
        number.checked_shr(rest) == self.first.checked_shr(rest)
    }

    /// Whether the block is smaller than that of another entry, or there is no other.
    #[inline]
    fn is_longer(&self, other: Option<&SpecialEntry>) -> bool {
        match other {
            Some(other) => other.len < self.len,
            None => true,
        }
    }
}

/// The registry of a family.
#[inline]
fn entries(family: Family) -> &'static [SpecialEntry] {
    match family {
        Family::Ipv4 => &IPV4_ENTRIES,
        Family::Ipv6 => &IPV6_ENTRIES,
    }
}

/// The entry with the longest block that contains the address with this number.
#[inline]
fn longest_match(
    entries: &'static [SpecialEntry],
    width: u8,
    number: u128,
) -> Option<&'static SpecialEntry> {
    let mut longest: Option<&'static SpecialEntry> = None;
    for entry in entries {
        if entry.contains(width, number) && entry.is_longer(longest) {
            longest = Some(entry);
        }
    }
    longest
}
