//! Addresses, networks, hosts and pairs of either family, for code that is written once over all of them.
//!
//! The clauses speak of a value by its family and its bits, whose width the family tells.

use crate::cidr::network::NetworkCalls as _;
use crate::inet::host::HostCalls as _;
use crate::inet_pair::host_pair::HostPairCalls as _;
use crate::addr::error::AddrParseError;
use crate::errors::{InetTupleError, NetworkLengthTooLongError, NetworkParseError};
use crate::family::Family;
use crate::inet_iterator::InetIterator;
use crate::internal_traits::sealed::{PrivCidr, PrivInet, PrivInetPair, PrivUnspecAddress};
use core::fmt::{Debug, Display};
use core::hash::Hash;
use core::str::FromStr;

mod addresses;
pub(crate) mod family_cidr;
mod one_family;
pub(crate) mod sealed_types;

/// A type of addresses, and the types of networks, hosts and pairs that go with it: `Ipv4Addr`, `Ipv6Addr` and
/// `IpAddr`.
///
/// No other type implements it, nor the three traits below. A function over them, as one of `C: Cidr`, is written and
/// proved once for both families and for either.
///
/// ```text
/// fn lower<A: Address>(one: A, other: A) -> A {
///     if other < one { other } else { one }
/// }
/// ```
///
/// It is called as any function:
///
/// ```
/// # use cidr::{errors::*, more::{canon::*, *}, parsers::*, *};
/// # use std::net::*;
/// # fn lower<A: Address>(one: A, other: A) -> A {
/// #     if other < one { other } else { one }
/// # }
/// assert_eq!(format!("{}", lower("10.0.0.2".parse::<IpAddr>()?, "::1".parse()?)), "10.0.0.2");
/// # Ok::<(), Box<dyn std::error::Error>>(())
/// ```
pub trait Address: Sized + Copy
    + Debug
    + Display
    + FromStr<Err = AddrParseError>
    + Ord
    + Hash
    + PrivUnspecAddress {
    /// The hosts that have such an address.
    type Inet: Inet<Address = Self>;

    /// The networks of such addresses.
    type Cidr: Cidr<Address = Self>;

    /// The pairs of such addresses.
    type InetPair: InetPair<Address = Self>;

}

/// A type of networks: `Ipv4Cidr`, `Ipv6Cidr` and `IpCidr`. The calls are those of the types, where each has an
/// example.
///
/// ```text
/// fn is_last<C: Cidr>(network: &C, address: C::Address) -> bool {
///     address == network.last_address()
/// }
/// ```
///
/// At a type:
///
/// ```
/// # use cidr::{errors::*, more::{canon::*, *}, parsers::*, *};
/// # use std::net::*;
/// # fn is_last<C: Cidr>(network: &C, address: C::Address) -> bool {
/// #     address == network.last_address()
/// # }
/// let network = "10.0.0.0/8".parse::<Ipv4Cidr>()?;
/// assert!(is_last(&network, "10.255.255.255".parse()?));
/// # Ok::<(), Box<dyn std::error::Error>>(())
/// ```
pub trait Cidr: Sized + Copy + Debug + Display + FromStr<Err = NetworkParseError> + Ord + Hash + PrivCidr {
    /// The addresses of the networks.
    type Address: Address<Cidr = Self>;

    /// The network of the first `len` bits of an address, of its family.
    ///
    /// Returns `NetworkLengthTooLongError` for a prefix length above the width, 32 or 128, and then `InvalidHostPart`
    /// for an address with a set bit after the first `len`.
    ///
    /// ```
    /// # use cidr::{errors::*, more::{canon::*, *}, parsers::*, *};
    /// # use std::net::*;
    /// assert_eq!(format!("{}", <IpCidr as Cidr>::new("2001:db8::".parse()?, 32)?), "2001:db8::/32");
    /// assert_eq!(format!("{:?}", <IpCidr as Cidr>::new("192.0.2.48".parse()?, 27)), "Err(host part of address was not zero)");
    /// # Ok::<(), Box<dyn std::error::Error>>(())
    /// ```
    ///
    /// # Errors
    ///
    /// `NetworkParseError`, whose variant is the first of the errors in the order that the crate's page has.
    fn new(addr: Self::Address, len: u8) -> Result<Self, NetworkParseError>;

    /// The network that has only this address, of full prefix length: /32 in IPv4 and /128 in IPv6.
    ///
    /// ```
    /// # use cidr::{errors::*, more::{canon::*, *}, parsers::*, *};
    /// # use std::net::*;
    /// assert_eq!(format!("{}", <IpCidr as Cidr>::new_host("192.0.2.1".parse()?)), "192.0.2.1");
    /// # Ok::<(), Box<dyn std::error::Error>>(())
    /// ```
    fn new_host(addr: Self::Address) -> Self;

    /// The hosts at all addresses of the network, ascending, with its prefix length. None is left out.
    ///
    /// ```
    /// # use cidr::{errors::*, more::{canon::*, *}, parsers::*, *};
    /// # use std::net::*;
    /// assert_eq!(format!("{:?}", Cidr::iter(&"10.0.0.0/30".parse::<IpCidr>()?).next_back()), "Some(V4(10.0.0.3/30))");
    /// # Ok::<(), Box<dyn std::error::Error>>(())
    /// ```
    fn iter(&self) -> InetIterator<Self::Address>;

    /// The first address, in which no bit after the prefix is set: in IPv4 the network address, up to /30.
    ///
    /// ```
    /// # use cidr::{errors::*, more::{canon::*, *}, parsers::*, *};
    /// # use std::net::*;
    /// assert_eq!(format!("{}", Cidr::first_address(&"192.0.2.48/28".parse::<IpCidr>()?)), "192.0.2.48");
    /// # Ok::<(), Box<dyn std::error::Error>>(())
    /// ```
    fn first_address(&self) -> Self::Address;

    /// The host at the first address, with the prefix length of the network.
    ///
    /// ```
    /// # use cidr::{errors::*, more::{canon::*, *}, parsers::*, *};
    /// # use std::net::*;
    /// assert_eq!(format!("{}", Cidr::first(&"192.0.2.48/28".parse::<IpCidr>()?)), "192.0.2.48/28");
    /// # Ok::<(), Box<dyn std::error::Error>>(())
    /// ```
    fn first(&self) -> <Self::Address as Address>::Inet;

    /// The last address, in which all bits after the prefix are set: in IPv4 the broadcast address, up to /30.
    ///
    /// ```
    /// # use cidr::{errors::*, more::{canon::*, *}, parsers::*, *};
    /// # use std::net::*;
    /// assert_eq!(format!("{}", Cidr::last_address(&"192.0.2.48/28".parse::<IpCidr>()?)), "192.0.2.63");
    /// # Ok::<(), Box<dyn std::error::Error>>(())
    /// ```
    fn last_address(&self) -> Self::Address;

    /// The host at the last address, with the prefix length of the network.
    ///
    /// ```
    /// # use cidr::{errors::*, more::{canon::*, *}, parsers::*, *};
    /// # use std::net::*;
    /// assert_eq!(format!("{}", Cidr::last(&"192.0.2.48/28".parse::<IpCidr>()?)), "192.0.2.63/28");
    /// # Ok::<(), Box<dyn std::error::Error>>(())
    /// ```
    fn last(&self) -> <Self::Address as Address>::Inet;

    /// The prefix length in bits, at most 32 in IPv4 and 128 in IPv6.
    ///
    /// ```
    /// # use cidr::{errors::*, more::{canon::*, *}, parsers::*, *};
    /// # use std::net::*;
    /// assert_eq!(Cidr::network_length(&"2001:db8::/32".parse::<IpCidr>()?), 32);
    /// # Ok::<(), Box<dyn std::error::Error>>(())
    /// ```
    fn network_length(&self) -> u8;

    /// The family of the network's addresses.
    ///
    /// ```
    /// # use cidr::{errors::*, more::{canon::*, *}, parsers::*, *};
    /// # use std::net::*;
    /// assert_eq!(format!("{:?}", Cidr::family(&"2001:db8::/32".parse::<IpCidr>()?)), "Ipv6");
    /// # Ok::<(), Box<dyn std::error::Error>>(())
    /// ```
    fn family(&self) -> Family;

    /// Whether the network has only one address, that is, whether the prefix length is full: 32 in IPv4 and 128 in
    /// IPv6.
    ///
    /// ```
    /// # use cidr::{errors::*, more::{canon::*, *}, parsers::*, *};
    /// # use std::net::*;
    /// assert!(!Cidr::is_host_address(&"2001:db8::/32".parse::<IpCidr>()?));
    /// assert!(Cidr::is_host_address(&"::1/128".parse::<IpCidr>()?));
    /// # Ok::<(), Box<dyn std::error::Error>>(())
    /// ```
    fn is_host_address(&self) -> bool;

    /// The network mask: as many set bits as the prefix length says, then zeros.
    ///
    /// ```
    /// # use cidr::{errors::*, more::{canon::*, *}, parsers::*, *};
    /// # use std::net::*;
    /// assert_eq!(format!("{}", Cidr::mask(&"2001:db8::/32".parse::<IpCidr>()?)), "ffff:ffff::");
    /// # Ok::<(), Box<dyn std::error::Error>>(())
    /// ```
    fn mask(&self) -> Self::Address;

    /// Whether the address is in the network, that is, of its family and begins with its prefix. An IPv4-mapped IPv6
    /// address is in no IPv4 network.
    ///
    /// ```
    /// # use cidr::{errors::*, more::{canon::*, *}, parsers::*, *};
    /// # use std::net::*;
    /// let network = "::ffff:0:0/96".parse::<IpCidr>()?;
    /// assert!(Cidr::contains(&network, &"::ffff:192.0.2.1".parse()?));
    /// assert!(!Cidr::contains(&network, &"192.0.2.1".parse()?));
    /// # Ok::<(), Box<dyn std::error::Error>>(())
    /// ```
    fn contains(&self, addr: &Self::Address) -> bool;

}

/// A type of hosts: `Ipv4Inet`, `Ipv6Inet` and `IpInet`. The calls are those of the types, where each has an example.
///
/// ```text
/// fn is_at_end<I: Inet>(host: I) -> bool {
///     host.next().is_none()
/// }
/// ```
///
/// At a type:
///
/// ```
/// # use cidr::{errors::*, more::{canon::*, *}, parsers::*, *};
/// # use std::net::*;
/// # fn is_at_end<I: Inet>(host: I) -> bool {
/// #     host.next().is_none()
/// # }
/// assert!(is_at_end("192.0.2.63/28".parse::<IpInet>()?));
/// # Ok::<(), Box<dyn std::error::Error>>(())
/// ```
pub trait Inet: Sized + Copy + Debug + Display + FromStr<Err = NetworkParseError> + Ord + Hash + PrivInet {
    /// The addresses of the hosts.
    type Address: Address<Inet = Self>;

    /// The host of an address in the network of its first `len` bits, of its family.
    ///
    /// Returns an error only for a prefix length above the width, 32 or 128.
    ///
    /// ```
    /// # use cidr::{errors::*, more::{canon::*, *}, parsers::*, *};
    /// # use std::net::*;
    /// assert_eq!(format!("{}", <IpInet as Inet>::new("2001:db8::5".parse()?, 32)?), "2001:db8::5/32");
    /// assert!(<IpInet as Inet>::new("192.0.2.50".parse()?, 33).is_err());
    /// # Ok::<(), Box<dyn std::error::Error>>(())
    /// ```
    ///
    /// # Errors
    ///
    /// `NetworkLengthTooLongError` for a prefix length above the width, 32 or 128.
    fn new(addr: Self::Address, len: u8) -> Result<Self, NetworkLengthTooLongError>;

    /// The host of full prefix length, whose network has only this address: /32 in IPv4 and /128 in IPv6.
    ///
    /// ```
    /// # use cidr::{errors::*, more::{canon::*, *}, parsers::*, *};
    /// # use std::net::*;
    /// assert_eq!(format!("{}", <IpInet as Inet>::new_host("192.0.2.1".parse()?)), "192.0.2.1");
    /// # Ok::<(), Box<dyn std::error::Error>>(())
    /// ```
    fn new_host(addr: Self::Address) -> Self;

    /// Steps to the next address of the network. From the last one it wraps to the first, and returns true.
    ///
    /// ```
    /// # use cidr::{errors::*, more::{canon::*, *}, parsers::*, *};
    /// # use std::net::*;
    /// let mut host = "192.0.2.63/28".parse::<IpInet>()?;
    /// assert!(Inet::increment(&mut host));
    /// assert_eq!(format!("{}", host), "192.0.2.48/28");
    /// # Ok::<(), Box<dyn std::error::Error>>(())
    /// ```
    fn increment(&mut self) -> bool;

    /// Steps to the previous address of the network. From the first one it wraps to the last, and returns true.
    ///
    /// ```
    /// # use cidr::{errors::*, more::{canon::*, *}, parsers::*, *};
    /// # use std::net::*;
    /// let mut host = "2001:db8::/112".parse::<IpInet>()?;
    /// assert!(Inet::decrement(&mut host));
    /// assert_eq!(format!("{}", host), "2001:db8::ffff/112");
    /// # Ok::<(), Box<dyn std::error::Error>>(())
    /// ```
    fn decrement(&mut self) -> bool;

    /// The host at the next address of the network, or `None` at the last one.
    ///
    /// ```
    /// # use cidr::{errors::*, more::{canon::*, *}, parsers::*, *};
    /// # use std::net::*;
    /// assert_eq!(format!("{:?}", Inet::next("192.0.2.62/28".parse::<IpInet>()?)), "Some(V4(192.0.2.63/28))");
    /// assert_eq!(format!("{:?}", Inet::next("192.0.2.63/28".parse::<IpInet>()?)), "None");
    /// # Ok::<(), Box<dyn std::error::Error>>(())
    /// ```
    fn next(self) -> Option<Self>;

    /// The host at the previous address of the network, or `None` at the first one.
    ///
    /// ```
    /// # use cidr::{errors::*, more::{canon::*, *}, parsers::*, *};
    /// # use std::net::*;
    /// assert_eq!(format!("{:?}", Inet::previous("2001:db8::5/32".parse::<IpInet>()?)), "Some(V6(2001:db8::4/32))");
    /// # Ok::<(), Box<dyn std::error::Error>>(())
    /// ```
    fn previous(self) -> Option<Self>;

    /// The host `step` addresses further in the network, and whether it wrapped from the last address to the first. Any
    /// step is exact.
    ///
    /// ```
    /// # use cidr::{errors::*, more::{canon::*, *}, parsers::*, *};
    /// # use std::net::*;
    /// let host = "192.0.2.50/28".parse::<IpInet>()?;
    /// assert_eq!(format!("{:?}", Inet::overflowing_add(host, 14)), "(V4(192.0.2.48/28), true)");
    /// # Ok::<(), Box<dyn std::error::Error>>(())
    /// ```
    fn overflowing_add(self, step: u128) -> (Self, bool);

    /// The host `step` addresses back in the network, and whether it wrapped from the first address to the last. Any
    /// step is exact.
    ///
    /// ```
    /// # use cidr::{errors::*, more::{canon::*, *}, parsers::*, *};
    /// # use std::net::*;
    /// assert_eq!(format!("{:?}", Inet::overflowing_sub("10.0.0.7/29".parse::<IpInet>()?, 8)), "(V4(10.0.0.7/29), true)");
    /// # Ok::<(), Box<dyn std::error::Error>>(())
    /// ```
    fn overflowing_sub(self, step: u128) -> (Self, bool);

    /// The network that the host is in: the bits after the prefix are unset.
    ///
    /// ```
    /// # use cidr::{errors::*, more::{canon::*, *}, parsers::*, *};
    /// # use std::net::*;
    /// assert_eq!(format!("{}", Inet::network(&"2001:db8::5/32".parse::<IpInet>()?)), "2001:db8::/32");
    /// # Ok::<(), Box<dyn std::error::Error>>(())
    /// ```
    fn network(&self) -> <Self::Address as Address>::Cidr;

    /// The address, without the prefix length.
    ///
    /// ```
    /// # use cidr::{errors::*, more::{canon::*, *}, parsers::*, *};
    /// # use std::net::*;
    /// assert_eq!(format!("{}", Inet::address(&"2001:db8::5/32".parse::<IpInet>()?)), "2001:db8::5");
    /// # Ok::<(), Box<dyn std::error::Error>>(())
    /// ```
    fn address(&self) -> Self::Address;

    /// The first address of the network, in which no bit after the prefix is set: in IPv4 the network address, up to
    /// /30.
    ///
    /// ```
    /// # use cidr::{errors::*, more::{canon::*, *}, parsers::*, *};
    /// # use std::net::*;
    /// assert_eq!(format!("{}", Inet::first_address(&"192.0.2.50/28".parse::<IpInet>()?)), "192.0.2.48");
    /// # Ok::<(), Box<dyn std::error::Error>>(())
    /// ```
    fn first_address(&self) -> Self::Address;

    /// The host at the first address of the network, with the same prefix length.
    ///
    /// ```
    /// # use cidr::{errors::*, more::{canon::*, *}, parsers::*, *};
    /// # use std::net::*;
    /// assert_eq!(format!("{}", Inet::first(&"10.4.3.2/8".parse::<IpInet>()?)), "10.0.0.0/8");
    /// # Ok::<(), Box<dyn std::error::Error>>(())
    /// ```
    fn first(&self) -> Self;

    /// The last address of the network, in which all bits after the prefix are set: in IPv4 the broadcast address, up
    /// to /30.
    ///
    /// ```
    /// # use cidr::{errors::*, more::{canon::*, *}, parsers::*, *};
    /// # use std::net::*;
    /// assert_eq!(format!("{}", Inet::last_address(&"192.0.2.50/28".parse::<IpInet>()?)), "192.0.2.63");
    /// # Ok::<(), Box<dyn std::error::Error>>(())
    /// ```
    fn last_address(&self) -> Self::Address;

    /// The host at the last address of the network, with the same prefix length.
    ///
    /// ```
    /// # use cidr::{errors::*, more::{canon::*, *}, parsers::*, *};
    /// # use std::net::*;
    /// assert_eq!(format!("{}", Inet::last(&"10.4.3.2/8".parse::<IpInet>()?)), "10.255.255.255/8");
    /// # Ok::<(), Box<dyn std::error::Error>>(())
    /// ```
    fn last(&self) -> Self;

    /// The prefix length in bits, at most 32 in IPv4 and 128 in IPv6.
    ///
    /// ```
    /// # use cidr::{errors::*, more::{canon::*, *}, parsers::*, *};
    /// # use std::net::*;
    /// assert_eq!(Inet::network_length(&"2001:db8::5/32".parse::<IpInet>()?), 32);
    /// # Ok::<(), Box<dyn std::error::Error>>(())
    /// ```
    fn network_length(&self) -> u8;

    /// The family of the host's address.
    ///
    /// ```
    /// # use cidr::{errors::*, more::{canon::*, *}, parsers::*, *};
    /// # use std::net::*;
    /// assert_eq!(format!("{:?}", Inet::family(&"2001:db8::5/32".parse::<IpInet>()?)), "Ipv6");
    /// # Ok::<(), Box<dyn std::error::Error>>(())
    /// ```
    fn family(&self) -> Family;

    /// Whether the network of the host has only one address, that is, whether the prefix length is full: 32 in IPv4 and
    /// 128 in IPv6.
    ///
    /// ```
    /// # use cidr::{errors::*, more::{canon::*, *}, parsers::*, *};
    /// # use std::net::*;
    /// assert!(Inet::is_host_address(&"192.0.2.50".parse::<IpInet>()?));
    /// # Ok::<(), Box<dyn std::error::Error>>(())
    /// ```
    fn is_host_address(&self) -> bool;

    /// The network mask: as many set bits as the prefix length says, then zeros.
    ///
    /// ```
    /// # use cidr::{errors::*, more::{canon::*, *}, parsers::*, *};
    /// # use std::net::*;
    /// assert_eq!(format!("{}", Inet::mask(&"192.0.2.50/28".parse::<IpInet>()?)), "255.255.255.240");
    /// # Ok::<(), Box<dyn std::error::Error>>(())
    /// ```
    fn mask(&self) -> Self::Address;

    /// Whether the address is in the network of the host, that is, of its family and begins with its prefix. An
    /// IPv4-mapped IPv6 address is in no IPv4 network.
    ///
    /// ```
    /// # use cidr::{errors::*, more::{canon::*, *}, parsers::*, *};
    /// # use std::net::*;
    /// let host = "192.0.2.50/28".parse::<IpInet>()?;
    /// assert!(Inet::contains(&host, &"192.0.2.63".parse()?));
    /// assert!(!Inet::contains(&host, &"::ffff:192.0.2.63".parse()?));
    /// # Ok::<(), Box<dyn std::error::Error>>(())
    /// ```
    fn contains(&self, addr: &Self::Address) -> bool;

}

/// A type of pairs, two addresses of one network: `Ipv4InetPair`, `Ipv6InetPair` and `IpInetPair`. The first may be
/// above the second. The calls are those of the types, where each has an example.
///
/// ```text
/// fn host_bits<P: InetPair>(pair: &P) -> u8 {
///     pair.family().len().saturating_sub(pair.network_length())
/// }
/// ```
///
/// At a type:
///
/// ```
/// # use cidr::{errors::*, more::{canon::*, *}, parsers::*, *};
/// # use std::net::*;
/// # fn host_bits<P: InetPair>(pair: &P) -> u8 {
/// #     pair.family().len().saturating_sub(pair.network_length())
/// # }
/// let host = "192.0.2.49/28".parse::<Ipv4Inet>()?;
/// assert_eq!(host_bits(&Ipv4InetPair::new(host, host)?), 4);
/// # Ok::<(), Box<dyn std::error::Error>>(())
/// ```
pub trait InetPair: Sized + Copy + Debug + Eq + Hash + PrivInetPair {
    /// The addresses of the pairs.
    type Address: Address<InetPair = Self>;

    /// The pair of two hosts. Returns `NotInSharedNetwork` for hosts of different families, of different prefix lengths
    /// or of different networks.
    ///
    /// ```
    /// # use cidr::{errors::*, more::{canon::*, *}, parsers::*, *};
    /// # use std::net::*;
    /// let (first, second) = ("10.0.0.1/8".parse()?, "10.0.0.3/8".parse()?);
    /// assert_eq!(format!("{}", <IpInetPair as InetPair>::new(first, second)?), "(10.0.0.1/8, 10.0.0.3/8)");
    /// # Ok::<(), Box<dyn std::error::Error>>(())
    /// ```
    ///
    /// # Errors
    ///
    /// `InetTupleError`, whose variant says whether the prefix length is above the width or the networks differ.
    fn new(
        first: <Self::Address as Address>::Inet,
        second: <Self::Address as Address>::Inet,
    ) -> Result<Self, InetTupleError>;

    /// The pair of two addresses in a network of this prefix length.
    ///
    /// Returns `NotInSharedNetwork` for two families, whatever the prefix length; then `NetworkLengthTooLongError` for
    /// a prefix length above the width, 32 or 128; then `NotInSharedNetwork` for addresses whose first `len` bits
    /// differ.
    ///
    /// ```
    /// # use cidr::{errors::*, more::{canon::*, *}, parsers::*, *};
    /// # use std::net::*;
    /// let (first, second) = ("192.0.2.1".parse()?, "2001:db8::1".parse()?);
    /// assert_eq!(format!("{:?}", <IpInetPair as InetPair>::new_from_addresses(first, second, 0)), "Err(addresses not in shared network)");
    /// # Ok::<(), Box<dyn std::error::Error>>(())
    /// ```
    ///
    /// # Errors
    ///
    /// `InetTupleError`, whose variant says whether the prefix length is above the width or the networks differ.
    fn new_from_addresses(
        first: Self::Address,
        second: Self::Address,
        len: u8,
    ) -> Result<Self, InetTupleError>;

    /// The first address, as a host with the prefix length of the pair.
    ///
    /// ```
    /// # use cidr::{errors::*, more::{canon::*, *}, parsers::*, *};
    /// # use std::net::*;
    /// let host = "192.0.2.49/28".parse::<IpInet>()?;
    /// assert_eq!(format!("{}", InetPair::first(&IpInetPair::new(host, host.last())?)), "192.0.2.49/28");
    /// # Ok::<(), Box<dyn std::error::Error>>(())
    /// ```
    fn first(&self) -> <Self::Address as Address>::Inet;

    /// The second address, as a host with the prefix length of the pair.
    ///
    /// ```
    /// # use cidr::{errors::*, more::{canon::*, *}, parsers::*, *};
    /// # use std::net::*;
    /// let host = "192.0.2.49/28".parse::<IpInet>()?;
    /// assert_eq!(format!("{}", InetPair::second(&IpInetPair::new(host, host.last())?)), "192.0.2.63/28");
    /// # Ok::<(), Box<dyn std::error::Error>>(())
    /// ```
    fn second(&self) -> <Self::Address as Address>::Inet;

    /// The network that both addresses are in, of the prefix length of the pair.
    ///
    /// ```
    /// # use cidr::{errors::*, more::{canon::*, *}, parsers::*, *};
    /// # use std::net::*;
    /// let host = "192.0.2.49/28".parse::<IpInet>()?;
    /// assert_eq!(format!("{}", InetPair::network(&IpInetPair::new(host, host)?)), "192.0.2.48/28");
    /// # Ok::<(), Box<dyn std::error::Error>>(())
    /// ```
    fn network(&self) -> <Self::Address as Address>::Cidr;

    /// The prefix length in bits, at most 32 in IPv4 and 128 in IPv6.
    ///
    /// ```
    /// # use cidr::{errors::*, more::{canon::*, *}, parsers::*, *};
    /// # use std::net::*;
    /// let host = "192.0.2.49/28".parse::<IpInet>()?;
    /// assert_eq!(InetPair::network_length(&IpInetPair::new(host, host)?), 28);
    /// # Ok::<(), Box<dyn std::error::Error>>(())
    /// ```
    fn network_length(&self) -> u8;

    /// The family of both addresses.
    ///
    /// ```
    /// # use cidr::{errors::*, more::{canon::*, *}, parsers::*, *};
    /// # use std::net::*;
    /// let host = "192.0.2.49/28".parse::<IpInet>()?;
    /// assert_eq!(format!("{:?}", InetPair::family(&IpInetPair::new(host, host)?)), "Ipv4");
    /// # Ok::<(), Box<dyn std::error::Error>>(())
    /// ```
    fn family(&self) -> Family;

    /// The hosts from the first address to the second inclusive, ascending, with the prefix length of the pair. There
    /// are none where the first is above the second.
    ///
    /// ```
    /// # use cidr::{errors::*, more::{canon::*, *}, parsers::*, *};
    /// # use std::net::*;
    /// let host = "192.0.2.49/28".parse::<IpInet>()?;
    /// assert_eq!(format!("{:?}", InetPair::iter(IpInetPair::new(host, host.last())?).checked_count()), "Some(15)");
    /// # Ok::<(), Box<dyn std::error::Error>>(())
    /// ```
    fn iter(self) -> InetIterator<Self::Address>;

}
