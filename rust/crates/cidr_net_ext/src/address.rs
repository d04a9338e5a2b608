//! Addresses as numbers.

use crate::shifts::{count_of_ones, greatest};
use cidr::names::{Address, Family, IpAddr, Ipv4Addr, Ipv6Addr};

/// Numbers and masks of addresses of the types `Ipv4Addr`, `Ipv6Addr` and `IpAddr`. No call allocates, and each takes
/// constant time.
pub trait AddressExt: Sized + Address {
    /// The address as a number, whose most significant bits are those of the first octet: below 2^32 in IPv4.
    ///
    /// ```
    /// # use cidr::names::*;
    /// # use cidr_ext::*;
    /// assert_eq!("192.0.2.1".parse::<IpAddr>()?.to_number(), 3221225985);
    /// # Ok::<(), Box<dyn std::error::Error>>(())
    /// ```
    fn to_number(self) -> u128;

    /// The family of the address.
    ///
    /// ```
    /// # use cidr::names::*;
    /// # use cidr_ext::*;
    /// assert_eq!(format!("{:?}", Ipv4Addr::new(192, 0, 2, 1).family()), "Ipv4");
    /// # Ok::<(), Box<dyn std::error::Error>>(())
    /// ```
    fn family(self) -> Family;

    /// The prefix length of a network mask, from 0 to the width, 32 or 128, or `None` where the address is none: where
    /// a set bit follows an unset one.
    ///
    /// ```
    /// # use cidr::names::*;
    /// # use cidr_ext::*;
    /// assert_eq!(format!("{:?}", Ipv4Addr::new(255, 255, 255, 240).mask_length()), "Some(28)");
    /// assert_eq!(format!("{:?}", Ipv4Addr::new(255, 0, 255, 0).mask_length()), "None");
    /// # Ok::<(), Box<dyn std::error::Error>>(())
    /// ```
    #[inline]
    fn mask_length(self) -> Option<u8> {
        let width = self.family().len();
        prefix_length(width, count_of_ones(greatest(width) - self.to_number()))
    }

    /// The prefix length of a host mask, the inverse of a network mask, or `None` where the address is none: where an
    /// unset bit follows a set one. Of 0.0.0.0 it is 32, of 255.255.255.255 it is 0.
    ///
    /// ```
    /// # use cidr::names::*;
    /// # use cidr_ext::*;
    /// assert_eq!(format!("{:?}", Ipv4Addr::new(0, 0, 0, 15).host_mask_length()), "Some(28)");
    /// # Ok::<(), Box<dyn std::error::Error>>(())
    /// ```
    #[inline]
    fn host_mask_length(self) -> Option<u8> {
        let width = self.family().len();
        prefix_length(width, count_of_ones(self.to_number()))
    }
}

impl AddressExt for Ipv4Addr {
    #[inline]
    fn to_number(self) -> u128 {
        u128::from(self.to_bits())
    }

    #[inline]
    fn family(self) -> Family {
        Family::Ipv4
    }
}

impl AddressExt for Ipv6Addr {
    #[inline]
    fn to_number(self) -> u128 {
        self.to_bits()
    }

    #[inline]
    fn family(self) -> Family {
        Family::Ipv6
    }
}

impl AddressExt for IpAddr {
    #[inline]
    fn to_number(self) -> u128 {
        match self {
            IpAddr::V4(address) => address.to_number(),
            IpAddr::V6(address) => address.to_number(),
        }
    }

    #[inline]
    fn family(self) -> Family {
        match self {
            IpAddr::V4(_) => Family::Ipv4,
            IpAddr::V6(_) => Family::Ipv6,
        }
    }
}

/// The prefix length of a mask with so many bits for hosts.
#[inline]
fn prefix_length(width: u8, host_bits: Option<u8>) -> Option<u8> {
    match host_bits {
        Some(host_bits) => width.checked_sub(host_bits),
        None => None,
    }
}
