//! Networks of one family, for code that is written once over both.

use crate::cidr::network::NetworkCalls as _;
use crate::inet::host::HostCalls as _;
use crate::inet_pair::host_pair::HostPairCalls as _;
use crate::addr::ip::IpAddr;
use crate::addr::v4::Ipv4Addr;
use crate::addr::AddressToText;
use crate::addr::v6::Ipv6Addr;
use crate::bits::NetworkBits;
use crate::cidr::combined::IpCidr;
use crate::cidr::network::{Ipv4Cidr, Ipv6Cidr};
use crate::family::Family;
use crate::internal_traits::sealed::PrivCidr;
use crate::traits::Address;
use cidr_support::arrayvec::ArrayString;

/// A type of networks of one family: `Ipv4Cidr` and `Ipv6Cidr`, and no other implements it.
///
/// A function of `C: FamilyCidr` is written and proved once for both. Its clauses speak of a network by its bits, as
/// `NetworkBits` has them, and by the family of the type; whatever holds for `IpCidr` too is written over `Cidr`.
///
/// ```text
/// fn size<C: FamilyCidr>(network: &C) -> u128 {
///     let (first, last) = network.ends();
///     (last - first).saturating_add(1)
/// }
/// ```
///
/// At a type:
///
/// ```
/// # use cidr::{errors::*, more::{canon::*, *}, parsers::*, *};
/// # use std::net::*;
/// # fn size<C: FamilyCidr>(network: &C) -> u128 {
/// #     let (first, last) = network.ends();
/// #     (last - first).saturating_add(1)
/// # }
/// assert_eq!(size(&"192.0.2.0/24".parse::<Ipv4Cidr>()?), 256);
/// # Ok::<(), Box<dyn std::error::Error>>(())
/// ```
pub trait FamilyCidr: Sized + NetworkBits + Copy + PrivCidr {
    /// The addresses of the networks.
    type Address: Address;

    /// The family of all networks of the type. `FAMILY.len()` is their width: 32 or 128.
    ///
    /// ```
    /// # use cidr::{errors::*, more::{canon::*, *}, parsers::*, *};
    /// # use std::net::*;
    /// assert_eq!(<Ipv6Cidr as FamilyCidr>::FAMILY.len(), 128);
    /// # Ok::<(), Box<dyn std::error::Error>>(())
    /// ```
    const FAMILY: Family;

    /// The network that has only this address, of full prefix length.
    ///
    /// ```
    /// # use cidr::{errors::*, more::{canon::*, *}, parsers::*, *};
    /// # use std::net::*;
    /// assert_eq!(format!("{}", <Ipv4Cidr as FamilyCidr>::new_host(Ipv4Addr::new(192, 0, 2, 1))), "192.0.2.1");
    /// # Ok::<(), Box<dyn std::error::Error>>(())
    /// ```
    fn new_host(address: Self::Address) -> Self;

    /// The prefix length in bits, at most 32 in IPv4 and 128 in IPv6.
    ///
    /// ```
    /// # use cidr::{errors::*, more::{canon::*, *}, parsers::*, *};
    /// # use std::net::*;
    /// assert_eq!(FamilyCidr::network_length(&"10.0.0.0/8".parse::<Ipv4Cidr>()?), 8);
    /// # Ok::<(), Box<dyn std::error::Error>>(())
    /// ```
    fn network_length(&self) -> u8;

    /// The first address, in which no bit after the prefix is set.
    ///
    /// ```
    /// # use cidr::{errors::*, more::{canon::*, *}, parsers::*, *};
    /// # use std::net::*;
    /// assert_eq!(format!("{}", FamilyCidr::first_address(&"10.0.0.0/8".parse::<Ipv4Cidr>()?)), "10.0.0.0");
    /// # Ok::<(), Box<dyn std::error::Error>>(())
    /// ```
    fn first_address(&self) -> Self::Address;

    /// The last address, in which all bits after the prefix are set.
    ///
    /// ```
    /// # use cidr::{errors::*, more::{canon::*, *}, parsers::*, *};
    /// # use std::net::*;
    /// assert_eq!(format!("{}", FamilyCidr::last_address(&"10.0.0.0/8".parse::<Ipv4Cidr>()?)), "10.255.255.255");
    /// # Ok::<(), Box<dyn std::error::Error>>(())
    /// ```
    fn last_address(&self) -> Self::Address;

    /// The numbers of the first and the last address, as `to_number` has them.
    ///
    /// ```
    /// # use cidr::{errors::*, more::{canon::*, *}, parsers::*, *};
    /// # use std::net::*;
    /// assert_eq!(format!("{:?}", "192.0.2.0/24".parse::<Ipv4Cidr>()?.ends()), "(3221225984, 3221226239)");
    /// # Ok::<(), Box<dyn std::error::Error>>(())
    /// ```
    fn ends(&self) -> (u128, u128);

    /// The number of an address, whose most significant bits are those of the first octet.
    ///
    /// ```
    /// # use cidr::{errors::*, more::{canon::*, *}, parsers::*, *};
    /// # use std::net::*;
    /// assert_eq!(Ipv4Cidr::to_number(Ipv4Addr::new(192, 0, 2, 1)), 3221225985);
    /// # Ok::<(), Box<dyn std::error::Error>>(())
    /// ```
    fn to_number(address: Self::Address) -> u128;

    /// The address with this number. The caller has to ensure that it is below 2^32 in IPv4, or below 2^128 in IPv6, as
    /// each `u128` is.
    ///
    /// ```
    /// # use cidr::{errors::*, more::{canon::*, *}, parsers::*, *};
    /// # use std::net::*;
    /// assert_eq!(format!("{}", Ipv4Cidr::from_number(3221225985)), "192.0.2.1");
    /// # Ok::<(), Box<dyn std::error::Error>>(())
    /// ```
    ///
    /// # Panics
    ///
    /// Unless `value <= FamilyCidr::ends(&<Self as crate::bits::BitString>::null()).1`.
    fn from_number(value: u128) -> Self::Address;

    /// The printed string, without a full prefix length: at most 18 bytes in IPv4 and 43 in IPv6.
    ///
    /// ```
    /// # use cidr::{errors::*, more::{canon::*, *}, parsers::*, *};
    /// # use std::net::*;
    /// assert_eq!(format!("{}", FamilyCidr::to_text(&"10.0.0.1/32".parse::<Ipv4Cidr>()?)), "10.0.0.1");
    /// # Ok::<(), Box<dyn std::error::Error>>(())
    /// ```
    fn to_text(&self) -> ArrayString<43>;

    /// The printed string, with the prefix length also where that is full: at most 18 bytes in IPv4 and 43 in IPv6.
    ///
    /// ```
    /// # use cidr::{errors::*, more::{canon::*, *}, parsers::*, *};
    /// # use std::net::*;
    /// assert_eq!(format!("{}", "192.0.2.1".parse::<Ipv4Cidr>()?.to_text_with_length()), "192.0.2.1/32");
    /// # Ok::<(), Box<dyn std::error::Error>>(())
    /// ```
    fn to_text_with_length(&self) -> ArrayString<43>;

    /// The printed string of an address: at most 15 bytes in IPv4 and 39 in IPv6 (RFC 5952).
    ///
    /// ```
    /// # use cidr::{errors::*, more::{canon::*, *}, parsers::*, *};
    /// # use std::net::*;
    /// assert_eq!(format!("{}", Ipv4Cidr::address_text(&Ipv4Addr::new(192, 0, 2, 1))), "192.0.2.1");
    /// # Ok::<(), Box<dyn std::error::Error>>(())
    /// ```
    fn address_text(address: &Self::Address) -> ArrayString<39>;

    /// The same network as one of either family.
    ///
    /// ```
    /// # use cidr::{errors::*, more::{canon::*, *}, parsers::*, *};
    /// # use std::net::*;
    /// assert_eq!(format!("{}", "192.0.2.0/24".parse::<Ipv4Cidr>()?.to_ip()), "192.0.2.0/24");
    /// # Ok::<(), Box<dyn std::error::Error>>(())
    /// ```
    fn to_ip(&self) -> IpCidr;

    /// A network of either family as one of this, or `None` where it is of the other.
    ///
    /// ```
    /// # use cidr::{errors::*, more::{canon::*, *}, parsers::*, *};
    /// # use std::net::*;
    /// assert_eq!(format!("{:?}", Ipv4Cidr::from_ip("192.0.2.0/24".parse()?)), "Some(192.0.2.0/24)");
    /// assert_eq!(format!("{:?}", Ipv6Cidr::from_ip("192.0.2.0/24".parse()?)), "None");
    /// # Ok::<(), Box<dyn std::error::Error>>(())
    /// ```
    fn from_ip(network: IpCidr) -> Option<Self>;

    /// The same address as one of either family.
    ///
    /// ```
    /// # use cidr::{errors::*, more::{canon::*, *}, parsers::*, *};
    /// # use std::net::*;
    /// assert_eq!(format!("{}", Ipv4Cidr::to_ip_address(Ipv4Addr::new(192, 0, 2, 1))), "192.0.2.1");
    /// # Ok::<(), Box<dyn std::error::Error>>(())
    /// ```
    fn to_ip_address(address: Self::Address) -> IpAddr;
}

impl FamilyCidr for Ipv4Cidr {
    type Address = Ipv4Addr;

    const FAMILY: Family = Family::Ipv4;

    #[inline]
    fn new_host(address: Ipv4Addr) -> Ipv4Cidr {
        Ipv4Cidr::new_host(address)
    }

    #[inline]
    fn network_length(&self) -> u8 {
        self.network_length()
    }

    #[inline]
    fn first_address(&self) -> Ipv4Addr {
        self.first_address()
    }

    #[inline]
    fn last_address(&self) -> Ipv4Addr {
        self.last_address()
    }

    #[inline(always)]
    fn ends(&self) -> (u128, u128) {
        // the call tells the proof that the prefix length fits
        self.network_length();
        let first = self.first_address().to_bits();
        let last = self.last_address().to_bits();
        (u128::from(first), u128::from(last))
    }

    #[inline(always)]
    fn to_number(address: Ipv4Addr) -> u128 {
        u128::from(address.to_bits())
    }

    #[inline(always)]
    fn from_number(value: u128) -> Ipv4Addr {
        assert!(value <= FamilyCidr::ends(&<Self as crate::bits::BitString>::null()).1);
        Ipv4Addr::from_bits(value as u32)
    }

    #[inline]
    fn to_text(&self) -> ArrayString<43> {
        self.to_text()
    }

    #[inline]
    fn to_text_with_length(&self) -> ArrayString<43> {
        self.with_length().to_text()
    }

    #[inline]
    fn address_text(address: &Ipv4Addr) -> ArrayString<39> {
        address.to_text()
    }

    #[inline]
    fn to_ip(&self) -> IpCidr {
        // the call tells the proof that the prefix length fits
        self.network_length();
        IpCidr::V4(*self)
    }

    fn from_ip(network: IpCidr) -> Option<Ipv4Cidr> {
        match network {
            IpCidr::V4(network) => {
                // the call tells the proof that the prefix length fits
                network.network_length();
                Some(network)
            }
            IpCidr::V6(_) => None,
        }
    }

    #[inline]
    fn to_ip_address(address: Ipv4Addr) -> IpAddr {
        IpAddr::V4(address)
    }
}

impl FamilyCidr for Ipv6Cidr {
    type Address = Ipv6Addr;

    const FAMILY: Family = Family::Ipv6;

    #[inline]
    fn new_host(address: Ipv6Addr) -> Ipv6Cidr {
        Ipv6Cidr::new_host(address)
    }

    #[inline]
    fn network_length(&self) -> u8 {
        self.network_length()
    }

    #[inline]
    fn first_address(&self) -> Ipv6Addr {
        self.first_address()
    }

    #[inline]
    fn last_address(&self) -> Ipv6Addr {
        self.last_address()
    }

    #[inline(always)]
    fn ends(&self) -> (u128, u128) {
        // the call tells the proof that the prefix length fits
        self.network_length();
        let first = self.first_address().to_bits();
        let last = self.last_address().to_bits();
        (first, last)
    }

    #[inline(always)]
    fn to_number(address: Ipv6Addr) -> u128 {
        address.to_bits()
    }

    #[inline(always)]
    fn from_number(value: u128) -> Ipv6Addr {
        assert!(value <= FamilyCidr::ends(&<Self as crate::bits::BitString>::null()).1);
        Ipv6Addr::from_bits(value)
    }

    #[inline]
    fn to_text(&self) -> ArrayString<43> {
        self.to_text()
    }

    #[inline]
    fn to_text_with_length(&self) -> ArrayString<43> {
        self.with_length().to_text()
    }

    #[inline]
    fn address_text(address: &Ipv6Addr) -> ArrayString<39> {
        address.to_text()
    }

    #[inline]
    fn to_ip(&self) -> IpCidr {
        // the call tells the proof that the prefix length fits
        self.network_length();
        IpCidr::V6(*self)
    }

    fn from_ip(network: IpCidr) -> Option<Ipv6Cidr> {
        match network {
            IpCidr::V6(network) => {
                // the call tells the proof that the prefix length fits
                network.network_length();
                Some(network)
            }
            IpCidr::V4(_) => None,
        }
    }

    #[inline]
    fn to_ip_address(address: Ipv6Addr) -> IpAddr {
        IpAddr::V6(address)
    }
}
