//! The networks of one family.
//!
//! Their walk, `iter`, stands beside, in `v4` and `v6`; their compact bytes in `compact::one_family`, their prefix
//! bytes in `prefix_bytes`, and the bits that they are a string of in `bits::network`.

use crate::cidr::network::NetworkCalls as _;
use crate::inet::host::HostCalls as _;
use crate::inet_pair::host_pair::HostPairCalls as _;
use crate::addr::v4::Ipv4Addr;
use crate::addr::v6::Ipv6Addr;
use crate::errors::{NetworkLengthTooLongError, NetworkParseError};
use crate::family::Family;
use crate::inet::host::{Host, Ipv4Inet, Ipv6Inet};
use crate::inet_iterator::InetIterator;
use crate::inet_pair::host_pair::HostPair;
use crate::internal_traits::address_bits::{AddressBits, AddressText};
use crate::text::print::{append, forced, plain};
use crate::text::read::{cut_at_last_slash, read_length};
use crate::text::with_length::WithLength;
use crate::traits::Cidr;
use cidr_support::arrayvec::ArrayString;
use core::cmp::Ordering;
use core::fmt;
use core::hash::{Hash, Hasher};
use core::str::FromStr;

/// A network of one family: all addresses that begin with the same bits, the prefix. `Ipv4Cidr` and `Ipv6Cidr` are its
/// two types.
///
/// 192.0.2.48/28 has the addresses from 192.0.2.48 to 192.0.2.63. The prefix length is at most 32 in IPv4 and 128 in
/// IPv6, and no bit of the first address after the prefix is set. It is parsed from an address, a slash and the prefix
/// length (RFC 4632, 3.1; RFC 4291, 2.3); an address with no slash is the network of full prefix length. The prefix
/// length is decimal, and may have a plus and zeros before it, as in the crate `cidr`: /+8 and /08 are /8. White space
/// and a mask in place of the prefix length are errors; their order is that of `NetworkParseError`.
///
/// Networks are ordered by first address and then by prefix length, shortest first.
///
/// ```
/// # use cidr::{errors::*, more::{canon::*, *}, parsers::*, *};
/// # use std::net::*;
/// assert_eq!(format!("{}", "192.0.2.48/28".parse::<Ipv4Cidr>()?), "192.0.2.48/28");
/// assert_eq!(format!("{:?}", "192.0.2.50/28".parse::<Ipv4Cidr>()), "Err(host part of address was not zero)");
/// let network = "10.0.0.0/8".parse::<Ipv4Cidr>()?;
/// assert!(network < "10.0.0.0/9".parse()?);
/// # Ok::<(), Box<dyn std::error::Error>>(())
/// ```
pub struct Network<A: AddressBits> {
    address: A,
    len: u8,
}

/// An IPv4 network, as 192.0.2.48/28: the prefix length is at most 32.
///
/// Its calls stand on the page of [`Network`](crate::more::Network), of which it is a type.
///
/// ```
/// # use cidr::{errors::*, more::{canon::*, *}, parsers::*, *};
/// # use std::net::*;
/// let network: Ipv4Cidr = "192.0.2.48/28".parse()?;
/// assert_eq!(format!("{}", network.last_address()), "192.0.2.63");
/// # Ok::<(), Box<dyn std::error::Error>>(())
/// ```
pub type Ipv4Cidr = Network<Ipv4Addr>;

/// An IPv6 network, as 2001:db8::/32: the prefix length is at most 128.
///
/// Its calls stand on the page of [`Network`](crate::more::Network), of which it is a type.
///
/// ```
/// # use cidr::{errors::*, more::{canon::*, *}, parsers::*, *};
/// # use std::net::*;
/// let network: Ipv6Cidr = "2001:db8::/126".parse()?;
/// assert_eq!(format!("{}", network.last_address()), "2001:db8::3");
/// # Ok::<(), Box<dyn std::error::Error>>(())
/// ```
pub type Ipv6Cidr = Network<Ipv6Addr>;

impl<A: AddressBits> Clone for Network<A> {
    #[inline]
    fn clone(&self) -> Network<A> {
        *self
    }
}

impl<A: AddressBits> Copy for Network<A> {}

impl Network<Ipv4Addr> {
    /// The network of the first `len` bits of an address.
    ///
    /// Returns `NetworkLengthTooLongError` for a prefix length above the width, 32 or 128, and then `InvalidHostPart`
    /// for an address with a set bit after the first `len`.
    ///
    /// ```
    /// # use cidr::{errors::*, more::{canon::*, *}, parsers::*, *};
    /// # use std::net::*;
    /// assert_eq!(format!("{}", Ipv4Cidr::new(Ipv4Addr::new(192, 0, 2, 48), 28)?), "192.0.2.48/28");
    /// assert_eq!(format!("{:?}", Ipv4Cidr::new(Ipv4Addr::new(192, 0, 2, 48), 27)), "Err(host part of address was not zero)");
    /// # Ok::<(), Box<dyn std::error::Error>>(())
    /// ```
    ///
    /// # Errors
    ///
    /// `NetworkParseError`, whose variant is the first of the errors in the order that the crate's page has.
    pub const fn new(addr: Ipv4Addr, len: u8) -> Result<Network<Ipv4Addr>, NetworkParseError> {
        if len > Family::Ipv4.len() {
            let too_long = NetworkLengthTooLongError::new(len as usize, Family::Ipv4);
            return Err(NetworkParseError::NetworkLengthTooLongError(too_long));
        }
        if !crate::const_bits::v4::is_first_in(addr, len) {
            return Err(NetworkParseError::InvalidHostPart);
        }
        Ok(Network { address: addr, len })
    }

    /// The network that has only this address, of full prefix length: /32 in IPv4 and /128 in IPv6. It is printed
    /// without the prefix length.
    ///
    /// ```
    /// # use cidr::{errors::*, more::{canon::*, *}, parsers::*, *};
    /// # use std::net::*;
    /// assert_eq!(format!("{}", Ipv4Cidr::new_host(Ipv4Addr::new(192, 0, 2, 1))), "192.0.2.1");
    /// assert_eq!(format!("{}", Ipv6Cidr::new_host(Ipv6Addr::from_bits(1))), "::1");
    /// # Ok::<(), Box<dyn std::error::Error>>(())
    /// ```
    #[inline]
    pub const fn new_host(addr: Ipv4Addr) -> Network<Ipv4Addr> {
        Network {
            address: addr,
            len: Family::Ipv4.len(),
        }
    }

    /// The network of this first address and prefix length, which are known to belong together.
    #[inline]
    pub(crate) const fn new_unchecked(addr: Ipv4Addr, len: u8) -> Network<Ipv4Addr> {
        Network { address: addr, len }
    }

    /// The network of this length that holds the address.
    #[inline]
    pub(crate) const fn holding(addr: Ipv4Addr, len: u8) -> Network<Ipv4Addr> {
        Network {
            address: crate::const_bits::v4::first_in(addr, len),
            len,
        }
    }

    /// The first address, in which no bit after the prefix is set: in IPv4 the network address, up to /30.
    ///
    /// ```
    /// # use cidr::{errors::*, more::{canon::*, *}, parsers::*, *};
    /// # use std::net::*;
    /// assert_eq!(format!("{}", "192.0.2.48/28".parse::<Ipv4Cidr>()?.first_address()), "192.0.2.48");
    /// # Ok::<(), Box<dyn std::error::Error>>(())
    /// ```
    #[inline]
    pub const fn first_address(&self) -> Ipv4Addr {
        self.address
    }

    /// The first address, by reference.
    ///
    /// ```
    /// # use cidr::{errors::*, more::{canon::*, *}, parsers::*, *};
    /// # use std::net::*;
    /// assert_eq!(format!("{}", "10.0.0.0/8".parse::<Ipv4Cidr>()?.first_address_ref()), "10.0.0.0");
    /// # Ok::<(), Box<dyn std::error::Error>>(())
    /// ```
    #[inline]
    pub const fn first_address_ref(&self) -> &Ipv4Addr {
        &self.address
    }

    /// The last address, in which all bits after the prefix are set: in IPv4 the broadcast address, up to /30.
    ///
    /// ```
    /// # use cidr::{errors::*, more::{canon::*, *}, parsers::*, *};
    /// # use std::net::*;
    /// assert_eq!(format!("{}", "192.0.2.48/28".parse::<Ipv4Cidr>()?.last_address()), "192.0.2.63");
    /// assert_eq!(format!("{}", "2001:db8::/120".parse::<Ipv6Cidr>()?.last_address()), "2001:db8::ff");
    /// # Ok::<(), Box<dyn std::error::Error>>(())
    /// ```
    #[inline]
    pub const fn last_address(&self) -> Ipv4Addr {
        crate::const_bits::v4::last_in(self.address, self.len)
    }

    /// The host at the first address, with the prefix length of the network.
    ///
    /// ```
    /// # use cidr::{errors::*, more::{canon::*, *}, parsers::*, *};
    /// # use std::net::*;
    /// assert_eq!(format!("{}", "192.0.2.48/28".parse::<Ipv4Cidr>()?.first()), "192.0.2.48/28");
    /// # Ok::<(), Box<dyn std::error::Error>>(())
    /// ```
    #[inline]
    pub const fn first(&self) -> Host<Ipv4Addr> {
        Host::<Ipv4Addr>::new_unchecked(self.first_address(), self.network_length())
    }

    /// The host at the last address, with the prefix length of the network.
    ///
    /// ```
    /// # use cidr::{errors::*, more::{canon::*, *}, parsers::*, *};
    /// # use std::net::*;
    /// assert_eq!(format!("{}", "192.0.2.48/28".parse::<Ipv4Cidr>()?.last()), "192.0.2.63/28");
    /// # Ok::<(), Box<dyn std::error::Error>>(())
    /// ```
    #[inline]
    pub const fn last(&self) -> Host<Ipv4Addr> {
        Host::<Ipv4Addr>::new_unchecked(self.last_address(), self.network_length())
    }

    /// The pair of the first and the last address. Its walk has exactly the addresses of the network.
    #[inline]
    pub(crate) const fn ends(&self) -> HostPair<Ipv4Addr> {
        HostPair::<Ipv4Addr>::new_unchecked(
            self.first_address(),
            self.last_address(),
            self.network_length(),
        )
    }

    /// The prefix length in bits, at most 32 in IPv4 and 128 in IPv6.
    ///
    /// ```
    /// # use cidr::{errors::*, more::{canon::*, *}, parsers::*, *};
    /// # use std::net::*;
    /// assert_eq!("10.0.0.0/8".parse::<Ipv4Cidr>()?.network_length(), 8);
    /// # Ok::<(), Box<dyn std::error::Error>>(())
    /// ```
    #[inline]
    pub const fn network_length(&self) -> u8 {
        self.len
    }

    /// The family of its addresses, which its type tells.
    ///
    /// ```
    /// # use cidr::{errors::*, more::{canon::*, *}, parsers::*, *};
    /// # use std::net::*;
    /// assert_eq!(format!("{:?}", "192.0.2.48/28".parse::<Ipv4Cidr>()?.family()), "Ipv4");
    /// # Ok::<(), Box<dyn std::error::Error>>(())
    /// ```
    #[inline]
    pub const fn family(&self) -> Family {
        Family::Ipv4
    }

    /// Whether the network has only one address, that is, whether the prefix length is full: 32 in IPv4 and 128 in
    /// IPv6.
    ///
    /// ```
    /// # use cidr::{errors::*, more::{canon::*, *}, parsers::*, *};
    /// # use std::net::*;
    /// assert!("10.0.0.1".parse::<Ipv4Cidr>()?.is_host_address());
    /// assert!(!("::/127".parse::<Ipv6Cidr>()?.is_host_address()));
    /// # Ok::<(), Box<dyn std::error::Error>>(())
    /// ```
    #[inline]
    pub const fn is_host_address(&self) -> bool {
        self.len == Family::Ipv4.len()
    }

    /// The network mask: as many set bits as the prefix length says, then zeros.
    ///
    /// ```
    /// # use cidr::{errors::*, more::{canon::*, *}, parsers::*, *};
    /// # use std::net::*;
    /// assert_eq!(format!("{}", "192.0.2.48/28".parse::<Ipv4Cidr>()?.mask()), "255.255.255.240");
    /// assert_eq!(format!("{}", "2001:db8::/32".parse::<Ipv6Cidr>()?.mask()), "ffff:ffff::");
    /// # Ok::<(), Box<dyn std::error::Error>>(())
    /// ```
    #[inline]
    pub const fn mask(&self) -> Ipv4Addr {
        crate::const_bits::v4::mask_of(self.len)
    }

    /// Whether the address is in the network, that is, begins with its prefix. The first and the last address are in
    /// it.
    ///
    /// An IPv6 network that holds IPv4-mapped addresses, as ::ffff:0:0/96, has no IPv4 address: the argument has to be
    /// of the network's own family, and nothing is mapped.
    ///
    /// ```
    /// # use cidr::{errors::*, more::{canon::*, *}, parsers::*, *};
    /// # use std::net::*;
    /// let network = "192.0.2.48/28".parse::<Ipv4Cidr>()?;
    /// assert!(network.contains(&Ipv4Addr::new(192, 0, 2, 63)));
    /// assert!(!network.contains(&Ipv4Addr::new(192, 0, 2, 64)));
    /// # Ok::<(), Box<dyn std::error::Error>>(())
    /// ```
    #[inline]
    pub const fn contains(&self, addr: &Ipv4Addr) -> bool {
        crate::const_bits::v4::shares(self.address, *addr, self.len)
    }

    /// Whether every address of the other network is in this one. Each network contains itself.
    ///
    /// Two networks of which neither contains the other have no address in common, and in their order those inside a
    /// network follow it one after the other.
    ///
    /// ```
    /// # use cidr::{errors::*, more::{canon::*, *}, parsers::*, *};
    /// # use std::net::*;
    /// let network = "10.0.0.0/8".parse::<Ipv4Cidr>()?;
    /// assert!(network.contains_cidr(&"10.1.0.0/16".parse()?));
    /// assert!(!network.contains_cidr(&"8.0.0.0/6".parse()?));
    /// # Ok::<(), Box<dyn std::error::Error>>(())
    /// ```
    #[inline]
    pub const fn contains_cidr(&self, other: &Network<Ipv4Addr>) -> bool {
        // both are made, so that no branch hangs on the lengths
        let begins = self.contains(&other.address);
        self.len <= other.len && begins
    }

    /// The network, to be printed with its prefix length also where that is full.
    ///
    /// ```
    /// # use cidr::{errors::*, more::{canon::*, *}, parsers::*, *};
    /// # use std::net::*;
    /// assert_eq!(format!("{}", "192.0.2.1".parse::<Ipv4Cidr>()?.with_length()), "192.0.2.1/32");
    /// # Ok::<(), Box<dyn std::error::Error>>(())
    /// ```
    #[inline]
    pub const fn with_length(&self) -> WithLength<Network<Ipv4Addr>> {
        WithLength::new(*self)
    }
}

impl Network<Ipv6Addr> {
    /// The network of the first `len` bits of an address.
    ///
    /// Returns `NetworkLengthTooLongError` for a prefix length above the width, 32 or 128, and then `InvalidHostPart`
    /// for an address with a set bit after the first `len`.
    ///
    /// ```
    /// # use cidr::{errors::*, more::{canon::*, *}, parsers::*, *};
    /// # use std::net::*;
    /// assert_eq!(format!("{}", Ipv4Cidr::new(Ipv4Addr::new(192, 0, 2, 48), 28)?), "192.0.2.48/28");
    /// assert_eq!(format!("{:?}", Ipv4Cidr::new(Ipv4Addr::new(192, 0, 2, 48), 27)), "Err(host part of address was not zero)");
    /// # Ok::<(), Box<dyn std::error::Error>>(())
    /// ```
    ///
    /// # Errors
    ///
    /// `NetworkParseError`, whose variant is the first of the errors in the order that the crate's page has.
    pub const fn new(addr: Ipv6Addr, len: u8) -> Result<Network<Ipv6Addr>, NetworkParseError> {
        if len > Family::Ipv6.len() {
            let too_long = NetworkLengthTooLongError::new(len as usize, Family::Ipv6);
            return Err(NetworkParseError::NetworkLengthTooLongError(too_long));
        }
        if !crate::const_bits::v6::is_first_in(addr, len) {
            return Err(NetworkParseError::InvalidHostPart);
        }
        Ok(Network { address: addr, len })
    }

    /// The network that has only this address, of full prefix length: /32 in IPv4 and /128 in IPv6. It is printed
    /// without the prefix length.
    ///
    /// ```
    /// # use cidr::{errors::*, more::{canon::*, *}, parsers::*, *};
    /// # use std::net::*;
    /// assert_eq!(format!("{}", Ipv4Cidr::new_host(Ipv4Addr::new(192, 0, 2, 1))), "192.0.2.1");
    /// assert_eq!(format!("{}", Ipv6Cidr::new_host(Ipv6Addr::from_bits(1))), "::1");
    /// # Ok::<(), Box<dyn std::error::Error>>(())
    /// ```
    #[inline]
    pub const fn new_host(addr: Ipv6Addr) -> Network<Ipv6Addr> {
        Network {
            address: addr,
            len: Family::Ipv6.len(),
        }
    }

    /// The network of this first address and prefix length, which are known to belong together.
    #[inline]
    pub(crate) const fn new_unchecked(addr: Ipv6Addr, len: u8) -> Network<Ipv6Addr> {
        Network { address: addr, len }
    }

    /// The network of this length that holds the address.
    #[inline]
    pub(crate) const fn holding(addr: Ipv6Addr, len: u8) -> Network<Ipv6Addr> {
        Network {
            address: crate::const_bits::v6::first_in(addr, len),
            len,
        }
    }

    /// The first address, in which no bit after the prefix is set: in IPv4 the network address, up to /30.
    ///
    /// ```
    /// # use cidr::{errors::*, more::{canon::*, *}, parsers::*, *};
    /// # use std::net::*;
    /// assert_eq!(format!("{}", "192.0.2.48/28".parse::<Ipv4Cidr>()?.first_address()), "192.0.2.48");
    /// # Ok::<(), Box<dyn std::error::Error>>(())
    /// ```
    #[inline]
    pub const fn first_address(&self) -> Ipv6Addr {
        self.address
    }

    /// The first address, by reference.
    ///
    /// ```
    /// # use cidr::{errors::*, more::{canon::*, *}, parsers::*, *};
    /// # use std::net::*;
    /// assert_eq!(format!("{}", "10.0.0.0/8".parse::<Ipv4Cidr>()?.first_address_ref()), "10.0.0.0");
    /// # Ok::<(), Box<dyn std::error::Error>>(())
    /// ```
    #[inline]
    pub const fn first_address_ref(&self) -> &Ipv6Addr {
        &self.address
    }

    /// The last address, in which all bits after the prefix are set: in IPv4 the broadcast address, up to /30.
    ///
    /// ```
    /// # use cidr::{errors::*, more::{canon::*, *}, parsers::*, *};
    /// # use std::net::*;
    /// assert_eq!(format!("{}", "192.0.2.48/28".parse::<Ipv4Cidr>()?.last_address()), "192.0.2.63");
    /// assert_eq!(format!("{}", "2001:db8::/120".parse::<Ipv6Cidr>()?.last_address()), "2001:db8::ff");
    /// # Ok::<(), Box<dyn std::error::Error>>(())
    /// ```
    #[inline]
    pub const fn last_address(&self) -> Ipv6Addr {
        crate::const_bits::v6::last_in(self.address, self.len)
    }

    /// The host at the first address, with the prefix length of the network.
    ///
    /// ```
    /// # use cidr::{errors::*, more::{canon::*, *}, parsers::*, *};
    /// # use std::net::*;
    /// assert_eq!(format!("{}", "192.0.2.48/28".parse::<Ipv4Cidr>()?.first()), "192.0.2.48/28");
    /// # Ok::<(), Box<dyn std::error::Error>>(())
    /// ```
    #[inline]
    pub const fn first(&self) -> Host<Ipv6Addr> {
        Host::<Ipv6Addr>::new_unchecked(self.first_address(), self.network_length())
    }

    /// The host at the last address, with the prefix length of the network.
    ///
    /// ```
    /// # use cidr::{errors::*, more::{canon::*, *}, parsers::*, *};
    /// # use std::net::*;
    /// assert_eq!(format!("{}", "192.0.2.48/28".parse::<Ipv4Cidr>()?.last()), "192.0.2.63/28");
    /// # Ok::<(), Box<dyn std::error::Error>>(())
    /// ```
    #[inline]
    pub const fn last(&self) -> Host<Ipv6Addr> {
        Host::<Ipv6Addr>::new_unchecked(self.last_address(), self.network_length())
    }

    /// The pair of the first and the last address. Its walk has exactly the addresses of the network.
    #[inline]
    pub(crate) const fn ends(&self) -> HostPair<Ipv6Addr> {
        HostPair::<Ipv6Addr>::new_unchecked(
            self.first_address(),
            self.last_address(),
            self.network_length(),
        )
    }

    /// The prefix length in bits, at most 32 in IPv4 and 128 in IPv6.
    ///
    /// ```
    /// # use cidr::{errors::*, more::{canon::*, *}, parsers::*, *};
    /// # use std::net::*;
    /// assert_eq!("10.0.0.0/8".parse::<Ipv4Cidr>()?.network_length(), 8);
    /// # Ok::<(), Box<dyn std::error::Error>>(())
    /// ```
    #[inline]
    pub const fn network_length(&self) -> u8 {
        self.len
    }

    /// The family of its addresses, which its type tells.
    ///
    /// ```
    /// # use cidr::{errors::*, more::{canon::*, *}, parsers::*, *};
    /// # use std::net::*;
    /// assert_eq!(format!("{:?}", "192.0.2.48/28".parse::<Ipv4Cidr>()?.family()), "Ipv4");
    /// # Ok::<(), Box<dyn std::error::Error>>(())
    /// ```
    #[inline]
    pub const fn family(&self) -> Family {
        Family::Ipv6
    }

    /// Whether the network has only one address, that is, whether the prefix length is full: 32 in IPv4 and 128 in
    /// IPv6.
    ///
    /// ```
    /// # use cidr::{errors::*, more::{canon::*, *}, parsers::*, *};
    /// # use std::net::*;
    /// assert!("10.0.0.1".parse::<Ipv4Cidr>()?.is_host_address());
    /// assert!(!("::/127".parse::<Ipv6Cidr>()?.is_host_address()));
    /// # Ok::<(), Box<dyn std::error::Error>>(())
    /// ```
    #[inline]
    pub const fn is_host_address(&self) -> bool {
        self.len == Family::Ipv6.len()
    }

    /// The network mask: as many set bits as the prefix length says, then zeros.
    ///
    /// ```
    /// # use cidr::{errors::*, more::{canon::*, *}, parsers::*, *};
    /// # use std::net::*;
    /// assert_eq!(format!("{}", "192.0.2.48/28".parse::<Ipv4Cidr>()?.mask()), "255.255.255.240");
    /// assert_eq!(format!("{}", "2001:db8::/32".parse::<Ipv6Cidr>()?.mask()), "ffff:ffff::");
    /// # Ok::<(), Box<dyn std::error::Error>>(())
    /// ```
    #[inline]
    pub const fn mask(&self) -> Ipv6Addr {
        crate::const_bits::v6::mask_of(self.len)
    }

    /// Whether the address is in the network, that is, begins with its prefix. The first and the last address are in
    /// it.
    ///
    /// An IPv6 network that holds IPv4-mapped addresses, as ::ffff:0:0/96, has no IPv4 address: the argument has to be
    /// of the network's own family, and nothing is mapped.
    ///
    /// ```
    /// # use cidr::{errors::*, more::{canon::*, *}, parsers::*, *};
    /// # use std::net::*;
    /// let network = "192.0.2.48/28".parse::<Ipv4Cidr>()?;
    /// assert!(network.contains(&Ipv4Addr::new(192, 0, 2, 63)));
    /// assert!(!network.contains(&Ipv4Addr::new(192, 0, 2, 64)));
    /// # Ok::<(), Box<dyn std::error::Error>>(())
    /// ```
    #[inline]
    pub const fn contains(&self, addr: &Ipv6Addr) -> bool {
        crate::const_bits::v6::shares(self.address, *addr, self.len)
    }

    /// Whether every address of the other network is in this one. Each network contains itself.
    ///
    /// Two networks of which neither contains the other have no address in common, and in their order those inside a
    /// network follow it one after the other.
    ///
    /// ```
    /// # use cidr::{errors::*, more::{canon::*, *}, parsers::*, *};
    /// # use std::net::*;
    /// let network = "10.0.0.0/8".parse::<Ipv4Cidr>()?;
    /// assert!(network.contains_cidr(&"10.1.0.0/16".parse()?));
    /// assert!(!network.contains_cidr(&"8.0.0.0/6".parse()?));
    /// # Ok::<(), Box<dyn std::error::Error>>(())
    /// ```
    #[inline]
    pub const fn contains_cidr(&self, other: &Network<Ipv6Addr>) -> bool {
        // both are made, so that no branch hangs on the lengths
        let begins = self.contains(&other.address);
        self.len <= other.len && begins
    }

    /// The network, to be printed with its prefix length also where that is full.
    ///
    /// ```
    /// # use cidr::{errors::*, more::{canon::*, *}, parsers::*, *};
    /// # use std::net::*;
    /// assert_eq!(format!("{}", "192.0.2.1".parse::<Ipv4Cidr>()?.with_length()), "192.0.2.1/32");
    /// # Ok::<(), Box<dyn std::error::Error>>(())
    /// ```
    #[inline]
    pub const fn with_length(&self) -> WithLength<Network<Ipv6Addr>> {
        WithLength::new(*self)
    }
}

/// The calls of `Network`, written once over both families.
pub trait NetworkCalls<A: AddressBits>: Sized {
    fn new(addr: A, len: u8) -> Result<Network<A>, NetworkParseError>;
    fn new_host(addr: A) -> Network<A>;
    fn new_unchecked(addr: A, len: u8) -> Network<A>;
    fn holding(addr: A, len: u8) -> Network<A>;
    fn first_address(&self) -> A;
    fn first_address_ref(&self) -> &A;
    fn last_address(&self) -> A;
    fn first(&self) -> Host<A>;
    fn last(&self) -> Host<A>;
    fn ends(&self) -> HostPair<A>;
    fn network_length(&self) -> u8;
    fn family(&self) -> Family;
    fn is_host_address(&self) -> bool;
    fn mask(&self) -> A;
    fn contains(&self, addr: &A) -> bool;
    fn contains_cidr(&self, other: &Network<A>) -> bool;
    fn with_length(&self) -> WithLength<Network<A>>;
}

impl<A: AddressBits> NetworkCalls<A> for Network<A> {
    fn new(addr: A, len: u8) -> Result<Network<A>, NetworkParseError> {
        if len > A::FAMILY.len() {
            let too_long = NetworkLengthTooLongError::new(len as usize, A::FAMILY);
            return Err(NetworkParseError::from(too_long));
        }
        if !addr.is_first_in(len) {
            return Err(NetworkParseError::InvalidHostPart);
        }
        // the call tells the proof how many bits the address has
        addr.has_width();
        Ok(Network { address: addr, len })
    }

    #[inline]
    fn new_host(addr: A) -> Network<A> {
        // the call tells the proof how many bits the address has
        addr.has_width();
        Network {
            address: addr,
            len: A::FAMILY.len(),
        }
    }

    #[inline]
    fn new_unchecked(addr: A, len: u8) -> Network<A> {
        Network { address: addr, len }
    }

    #[inline]
    fn holding(addr: A, len: u8) -> Network<A> {
        // the call tells the proof how many bits the address has
        addr.has_width();
        Network {
            address: addr.first_in(len),
            len,
        }
    }

    #[inline]
    fn first_address(&self) -> A {
        self.address
    }

    #[inline]
    fn first_address_ref(&self) -> &A {
        &self.address
    }

    #[inline]
    fn last_address(&self) -> A {
        self.address.last_in(self.len)
    }

    #[inline]
    fn first(&self) -> Host<A> {
        Host::<A>::new_unchecked(self.first_address(), self.network_length())
    }

    #[inline]
    fn last(&self) -> Host<A> {
        Host::<A>::new_unchecked(self.last_address(), self.network_length())
    }

    #[inline]
    fn ends(&self) -> HostPair<A> {
        HostPair::<A>::new_unchecked(
            self.first_address(),
            self.last_address(),
            self.network_length(),
        )
    }

    #[inline]
    fn network_length(&self) -> u8 {
        self.len
    }

    #[inline]
    fn family(&self) -> Family {
        A::FAMILY
    }

    #[inline]
    fn is_host_address(&self) -> bool {
        self.len == A::FAMILY.len()
    }

    #[inline]
    fn mask(&self) -> A {
        A::mask_of(self.len)
    }

    #[inline]
    fn contains(&self, addr: &A) -> bool {
        self.address.shares(*addr, self.len)
    }

    #[inline]
    fn contains_cidr(&self, other: &Network<A>) -> bool {
        // both are made, so that no branch hangs on the lengths
        let begins = self.contains(&other.address);
        self.len <= other.len && begins
    }

    #[inline]
    fn with_length(&self) -> WithLength<Network<A>> {
        WithLength::new(*self)
    }
}

impl<A: AddressText> Network<A> {
    /// The printed string, without a full prefix length, in an `ArrayString`, so that nothing is allocated. It has at
    /// most 18 bytes in IPv4 and 43 in IPv6. Parsing it gives the same network.
    ///
    /// ```
    /// # use cidr::{errors::*, more::{canon::*, *}, parsers::*, *};
    /// # use std::net::*;
    /// assert_eq!(format!("{}", "192.0.2.1/32".parse::<Ipv4Cidr>()?.to_text()), "192.0.2.1");
    /// assert_eq!(format!("{}", "2001:DB8:0::/32".parse::<Ipv6Cidr>()?.to_text()), "2001:db8::/32");
    /// # Ok::<(), Box<dyn std::error::Error>>(())
    /// ```
    #[inline]
    pub fn to_text(&self) -> ArrayString<43> {
        plain(self.first_address(), self.network_length())
    }

    /// Appends the printed string, as `to_text` gives it, to one that the caller has. Where there is no room for the whole
    /// of it, it fails, and the string is as it was.
    ///
    /// ```
    /// # use cidr::{errors::*, more::{canon::*, *}, parsers::*, *};
    /// # use std::net::*;
    /// use cidr_support::arrayvec::ArrayString;
    /// let mut text = ArrayString::<43>::new();
    /// "192.0.2.48/28".parse::<Ipv4Cidr>()?.write_to(&mut text)?;
    /// assert_eq!(format!("{}", text), "192.0.2.48/28");
    /// # Ok::<(), Box<dyn std::error::Error>>(())
    /// ```
    ///
    /// # Errors
    ///
    /// `fmt::Error` where there is no room for the whole string, and then nothing is appended.
    #[inline]
    pub fn write_to<const CAP: usize>(&self, text: &mut ArrayString<CAP>) -> fmt::Result {
        append(text, self.to_text().as_str())
    }
}

impl<A: AddressText> WithLength<Network<A>> {
    /// The printed string, with the prefix length also where that is full: at most 18 bytes in IPv4 and 43 in IPv6.
    /// Parsing it gives the same network.
    ///
    /// ```
    /// # use cidr::{errors::*, more::{canon::*, *}, parsers::*, *};
    /// # use std::net::*;
    /// assert_eq!(format!("{}", "::1".parse::<Ipv6Cidr>()?.with_length().to_text()), "::1/128");
    /// # Ok::<(), Box<dyn std::error::Error>>(())
    /// ```
    #[inline]
    pub fn to_text(&self) -> ArrayString<43> {
        let network = self.get();
        forced(network.first_address(), network.network_length())
    }
}

impl<A: AddressBits> PartialEq for Network<A> {
    #[inline]
    fn eq(&self, other: &Network<A>) -> bool {
        self.address == other.address && self.len == other.len
    }
}

impl<A: AddressBits> Eq for Network<A> {}

impl<A: AddressBits> PartialOrd for Network<A> {
    #[inline]
    fn partial_cmp(&self, other: &Network<A>) -> Option<Ordering> {
        Some(self.cmp(other))
    }
}

impl<A: AddressBits> Ord for Network<A> {
    #[inline]
    fn cmp(&self, other: &Network<A>) -> Ordering {
        self.address.order(self.len, other.address, other.len)
    }
}

impl<A: AddressBits> Hash for Network<A> {
    #[inline]
    fn hash<H: Hasher>(&self, state: &mut H) {
        self.address.hash(state);
        self.len.hash(state);
    }
}

impl<A: AddressBits> From<A> for Network<A> {
    #[inline]
    fn from(address: A) -> Network<A> {
        Network::<A>::new_host(address)
    }
}

impl<A: AddressText> FromStr for Network<A> {
    type Err = NetworkParseError;

    #[inline]
    fn from_str(s: &str) -> Result<Network<A>, NetworkParseError> {
        let Some((front, back)) = cut_at_last_slash(s) else {
            return Ok(Network::<A>::new_host(A::read(s)?));
        };
        let address = A::read(front)?;
        let len = read_length(back)?;
        Network::<A>::new(address, len)
    }
}

impl<A: AddressText> fmt::Display for Network<A> {
    #[inline]
    fn fmt(&self, f: &mut fmt::Formatter<'_>) -> fmt::Result {
        if f.alternate() {
            return f.write_str(self.with_length().to_text().as_str());
        }
        f.write_str(self.to_text().as_str())
    }
}

impl<A: AddressText> fmt::Display for WithLength<Network<A>> {
    #[inline]
    fn fmt(&self, f: &mut fmt::Formatter<'_>) -> fmt::Result {
        f.write_str(self.to_text().as_str())
    }
}

impl<A: AddressText> fmt::Debug for Network<A> {
    #[inline]
    fn fmt(&self, f: &mut fmt::Formatter<'_>) -> fmt::Result {
        fmt::Display::fmt(&self.with_length(), f)
    }
}

impl Cidr for Ipv4Cidr {
    type Address = Ipv4Addr;

    #[inline]
    fn new(addr: Ipv4Addr, len: u8) -> Result<Ipv4Cidr, NetworkParseError> {
        Ipv4Cidr::new(addr, len)
    }

    #[inline]
    fn new_host(addr: Ipv4Addr) -> Ipv4Cidr {
        Ipv4Cidr::new_host(addr)
    }

    #[inline]
    fn iter(&self) -> InetIterator<Ipv4Addr> {
        self.iter()
    }

    #[inline]
    fn first_address(&self) -> Ipv4Addr {
        self.first_address()
    }

    #[inline]
    fn first(&self) -> Ipv4Inet {
        self.first()
    }

    #[inline]
    fn last_address(&self) -> Ipv4Addr {
        self.last_address()
    }

    #[inline]
    fn last(&self) -> Ipv4Inet {
        self.last()
    }

    #[inline]
    fn network_length(&self) -> u8 {
        self.network_length()
    }

    #[inline]
    fn family(&self) -> Family {
        self.family()
    }

    #[inline]
    fn is_host_address(&self) -> bool {
        self.is_host_address()
    }

    #[inline]
    fn mask(&self) -> Ipv4Addr {
        self.mask()
    }

    #[inline]
    fn contains(&self, addr: &Ipv4Addr) -> bool {
        self.contains(addr)
    }

}

impl Cidr for Ipv6Cidr {
    type Address = Ipv6Addr;

    #[inline]
    fn new(addr: Ipv6Addr, len: u8) -> Result<Ipv6Cidr, NetworkParseError> {
        Ipv6Cidr::new(addr, len)
    }

    #[inline]
    fn new_host(addr: Ipv6Addr) -> Ipv6Cidr {
        Ipv6Cidr::new_host(addr)
    }

    #[inline]
    fn iter(&self) -> InetIterator<Ipv6Addr> {
        self.iter()
    }

    #[inline]
    fn first_address(&self) -> Ipv6Addr {
        self.first_address()
    }

    #[inline]
    fn first(&self) -> Ipv6Inet {
        self.first()
    }

    #[inline]
    fn last_address(&self) -> Ipv6Addr {
        self.last_address()
    }

    #[inline]
    fn last(&self) -> Ipv6Inet {
        self.last()
    }

    #[inline]
    fn network_length(&self) -> u8 {
        self.network_length()
    }

    #[inline]
    fn family(&self) -> Family {
        self.family()
    }

    #[inline]
    fn is_host_address(&self) -> bool {
        self.is_host_address()
    }

    #[inline]
    fn mask(&self) -> Ipv6Addr {
        self.mask()
    }

    #[inline]
    fn contains(&self, addr: &Ipv6Addr) -> bool {
        self.contains(addr)
    }

}
