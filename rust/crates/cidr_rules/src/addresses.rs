//! Addresses as the values of fields, and networks as ranges of addresses.

use crate::fields::{FieldValue, Range};
use cidr::{FamilyCidr, Ipv4Addr, Ipv4Cidr, Ipv6Addr, Ipv6Cidr};

impl FieldValue for Ipv4Addr {
    #[inline]
    fn is_upto(self, other: Ipv4Addr) -> bool {
        self.to_bits() <= other.to_bits()
    }

    #[inline]
    fn next(self, greater: Ipv4Addr) -> Ipv4Addr {
        // the call tells the proof that there is a next number
        greater.to_bits();
        let value = self.to_bits();
        Ipv4Addr::from_bits(value + 1)
    }

    #[inline]
    fn previous(self, _less: Ipv4Addr) -> Ipv4Addr {
        let value = self.to_bits();
        Ipv4Addr::from_bits(value - 1)
    }
}

impl FieldValue for Ipv6Addr {
    #[inline]
    fn is_upto(self, other: Ipv6Addr) -> bool {
        self.to_bits() <= other.to_bits()
    }

    #[inline]
    fn next(self, greater: Ipv6Addr) -> Ipv6Addr {
        // the call tells the proof that there is a next number
        greater.to_bits();
        let value = self.to_bits();
        Ipv6Addr::from_bits(value + 1)
    }

    #[inline]
    fn previous(self, _less: Ipv6Addr) -> Ipv6Addr {
        let value = self.to_bits();
        Ipv6Addr::from_bits(value - 1)
    }
}

/// Networks whose addresses are fields of packets: `Ipv4Cidr` and `Ipv6Cidr`.
pub trait Endpoint: Sized + FamilyCidr {
    /// The addresses: `Ipv4Addr` or `Ipv6Addr`.
    type Value: FieldValue;

    /// The addresses of the network.
    ///
    /// ```
    /// # use cidr::*;
    /// # use cidr_rules::*;
    /// # use cidr_support::alloc::Global;
    /// assert_eq!(format!("{}", "192.0.2.0/24".parse::<Ipv4Cidr>()?.addresses().last), "192.0.2.255");
    /// # Ok::<(), Box<dyn std::error::Error>>(())
    /// ```
    fn addresses(&self) -> Range<Self::Value>;
}

impl Endpoint for Ipv4Cidr {
    type Value = Ipv4Addr;

    #[inline]
    fn addresses(&self) -> Range<Ipv4Addr> {
        // the call tells the proof that the prefix length fits
        self.network_length();
        Range {
            first: self.first_address(),
            last: self.last_address(),
        }
    }
}

impl Endpoint for Ipv6Cidr {
    type Value = Ipv6Addr;

    #[inline]
    fn addresses(&self) -> Range<Ipv6Addr> {
        // the call tells the proof that the prefix length fits
        self.network_length();
        Range {
            first: self.first_address(),
            last: self.last_address(),
        }
    }
}
