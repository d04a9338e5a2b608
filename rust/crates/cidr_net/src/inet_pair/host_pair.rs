//! The pairs of addresses of one family.
//!
//! Their walk, `iter`, stands beside, in `v4` and `v6`.

use crate::cidr::network::NetworkCalls as _;
use crate::inet::host::HostCalls as _;
use crate::inet_pair::host_pair::HostPairCalls as _;
use crate::addr::v4::Ipv4Addr;
use crate::addr::v6::Ipv6Addr;
use crate::cidr::network::{Ipv4Cidr, Ipv6Cidr, Network};
use crate::errors::{InetTupleError, NetworkLengthTooLongError};
use crate::family::Family;
use crate::inet::host::{Host, Ipv4Inet, Ipv6Inet};
use crate::inet_iterator::InetIterator;
use crate::internal_traits::address_bits::{AddressBits, AddressText};
use crate::text::print::{forced, parenthesized, plain};
use crate::text::with_length::WithLength;
use crate::traits::InetPair;
use cidr_support::arrayvec::ArrayString;
use core::fmt;
use core::hash::{Hash, Hasher};

/// Two addresses of one network, and the prefix length of that network. `Ipv4InetPair` and `Ipv6InetPair` are its two
/// types.
///
/// It is a range of addresses, from the first to the second inclusive. The first may be above the second; the range has
/// no address then. The prefix length is at most 32 in IPv4 and 128 in IPv6. It is printed and not parsed, and has no
/// order.
///
/// ```
/// # use cidr::{errors::*, more::{canon::*, *}, parsers::*, *};
/// # use std::net::*;
/// let host = "192.0.2.49/28".parse::<Ipv4Inet>()?;
/// assert_eq!(format!("{}", Ipv4InetPair::new(host, host.last())?), "(192.0.2.49/28, 192.0.2.63/28)");
/// # Ok::<(), Box<dyn std::error::Error>>(())
/// ```
pub struct HostPair<A: AddressBits> {
    first: A,
    second: A,
    len: u8,
}

/// Two IPv4 addresses of one network, as (192.0.2.49/28, 192.0.2.51/28).
///
/// Its calls stand on the page of [`HostPair`](crate::more::HostPair), of which it is a type.
///
/// ```
/// # use cidr::{errors::*, more::{canon::*, *}, parsers::*, *};
/// # use std::net::*;
/// let pair = Ipv4InetPair::new_from_addresses(Ipv4Addr::new(192, 0, 2, 49), Ipv4Addr::new(192, 0, 2, 51), 28)?;
/// assert_eq!(format!("{:?}", pair.iter().last()), "Some(192.0.2.51/28)");
/// # Ok::<(), Box<dyn std::error::Error>>(())
/// ```
pub type Ipv4InetPair = HostPair<Ipv4Addr>;

/// Two IPv6 addresses of one network, as (2001:db8::1/32, 2001:db8::5/32).
///
/// Its calls stand on the page of [`HostPair`](crate::more::HostPair), of which it is a type.
///
/// ```
/// # use cidr::{errors::*, more::{canon::*, *}, parsers::*, *};
/// # use std::net::*;
/// let pair = Ipv6InetPair::new_from_addresses("2001:db8::1".parse()?, "2001:db8::5".parse()?, 32)?;
/// assert_eq!(format!("{:?}", pair.iter().last()), "Some(2001:db8::5/32)");
/// # Ok::<(), Box<dyn std::error::Error>>(())
/// ```
pub type Ipv6InetPair = HostPair<Ipv6Addr>;

impl<A: AddressBits> Clone for HostPair<A> {
    #[inline]
    fn clone(&self) -> HostPair<A> {
        *self
    }
}

impl<A: AddressBits> Copy for HostPair<A> {}

impl HostPair<Ipv4Addr> {
    /// The pair of two hosts. Returns `NotInSharedNetwork` for hosts of different prefix lengths or of different
    /// networks.
    ///
    /// ```
    /// # use cidr::{errors::*, more::{canon::*, *}, parsers::*, *};
    /// # use std::net::*;
    /// let (first, second) = ("10.0.0.1/8".parse()?, "10.0.0.3/8".parse()?);
    /// assert_eq!(format!("{}", Ipv4InetPair::new(first, second)?), "(10.0.0.1/8, 10.0.0.3/8)");
    /// # Ok::<(), Box<dyn std::error::Error>>(())
    /// ```
    ///
    /// # Errors
    ///
    /// `InetTupleError`, whose variant says whether the prefix length is above the width or the networks differ.
    #[inline]
    pub const fn new(first: Host<Ipv4Addr>, second: Host<Ipv4Addr>) -> Result<HostPair<Ipv4Addr>, InetTupleError> {
        if first.network_length() != second.network_length() {
            return Err(InetTupleError::NotInSharedNetwork);
        }
        HostPair::<Ipv4Addr>::sharing(first.address(), second.address(), first.network_length())
    }

    /// The pair of two addresses in a network of this prefix length.
    ///
    /// Returns `NetworkLengthTooLongError` for a prefix length above the width, 32 or 128, and then
    /// `NotInSharedNetwork` for addresses whose first `len` bits differ.
    ///
    /// ```
    /// # use cidr::{errors::*, more::{canon::*, *}, parsers::*, *};
    /// # use std::net::*;
    /// let (first, last) = ("192.0.2.1".parse()?, "192.0.2.129".parse()?);
    /// assert_eq!(format!("{}", Ipv4InetPair::new_from_addresses(first, last, 24)?), "(192.0.2.1/24, 192.0.2.129/24)");
    /// assert_eq!(format!("{:?}", Ipv4InetPair::new_from_addresses(first, last, 25)), "Err(addresses not in shared network)");
    /// # Ok::<(), Box<dyn std::error::Error>>(())
    /// ```
    ///
    /// # Errors
    ///
    /// `InetTupleError`, whose variant says whether the prefix length is above the width or the networks differ.
    #[inline]
    pub const fn new_from_addresses(first: Ipv4Addr, second: Ipv4Addr, len: u8) -> Result<HostPair<Ipv4Addr>, InetTupleError> {
        if len > Family::Ipv4.len() {
            return Err(InetTupleError::NetworkLengthTooLongError(NetworkLengthTooLongError::new(
                len as usize,
                Family::Ipv4,
            )));
        }
        HostPair::<Ipv4Addr>::sharing(first, second, len)
    }

    /// The pair, if both addresses begin with the same `len` bits.
    #[inline]
    const fn sharing(first: Ipv4Addr, second: Ipv4Addr, len: u8) -> Result<HostPair<Ipv4Addr>, InetTupleError> {
        if !crate::const_bits::v4::shares(first, second, len) {
            return Err(InetTupleError::NotInSharedNetwork);
        }
        Ok(HostPair { first, second, len })
    }

    /// The pair of two addresses that are known to be in one network of this prefix length.
    #[inline]
    pub(crate) const fn new_unchecked(first: Ipv4Addr, second: Ipv4Addr, len: u8) -> HostPair<Ipv4Addr> {
        HostPair { first, second, len }
    }

    /// The two addresses.
    #[inline]
    pub(crate) const fn addresses(&self) -> (Ipv4Addr, Ipv4Addr) {
        (self.first, self.second)
    }

    /// The first address, as a host with the prefix length of the pair.
    ///
    /// ```
    /// # use cidr::{errors::*, more::{canon::*, *}, parsers::*, *};
    /// # use std::net::*;
    /// let host = "192.0.2.49/28".parse::<Ipv4Inet>()?;
    /// assert_eq!(format!("{}", Ipv4InetPair::new(host, host.last())?.first()), "192.0.2.49/28");
    /// # Ok::<(), Box<dyn std::error::Error>>(())
    /// ```
    #[inline]
    pub const fn first(&self) -> Host<Ipv4Addr> {
        Host::<Ipv4Addr>::new_unchecked(self.first, self.len)
    }

    /// The second address, as a host with the prefix length of the pair.
    ///
    /// ```
    /// # use cidr::{errors::*, more::{canon::*, *}, parsers::*, *};
    /// # use std::net::*;
    /// let host = "192.0.2.49/28".parse::<Ipv4Inet>()?;
    /// assert_eq!(format!("{}", Ipv4InetPair::new(host, host.last())?.second()), "192.0.2.63/28");
    /// # Ok::<(), Box<dyn std::error::Error>>(())
    /// ```
    #[inline]
    pub const fn second(&self) -> Host<Ipv4Addr> {
        Host::<Ipv4Addr>::new_unchecked(self.second, self.len)
    }

    /// The network that both addresses are in, of the prefix length of the pair. It may have more addresses than the
    /// pair.
    ///
    /// ```
    /// # use cidr::{errors::*, more::{canon::*, *}, parsers::*, *};
    /// # use std::net::*;
    /// let host = "192.0.2.49/28".parse::<Ipv4Inet>()?;
    /// assert_eq!(format!("{}", Ipv4InetPair::new(host, host)?.network()), "192.0.2.48/28");
    /// # Ok::<(), Box<dyn std::error::Error>>(())
    /// ```
    #[inline]
    pub const fn network(&self) -> Network<Ipv4Addr> {
        self.first().network()
    }

    /// The prefix length in bits, at most 32 in IPv4 and 128 in IPv6.
    ///
    /// ```
    /// # use cidr::{errors::*, more::{canon::*, *}, parsers::*, *};
    /// # use std::net::*;
    /// let host = "192.0.2.49/28".parse::<Ipv4Inet>()?;
    /// assert_eq!(Ipv4InetPair::new(host, host)?.network_length(), 28);
    /// # Ok::<(), Box<dyn std::error::Error>>(())
    /// ```
    #[inline]
    pub const fn network_length(&self) -> u8 {
        self.len
    }

    /// The family of both addresses, which its type tells.
    ///
    /// ```
    /// # use cidr::{errors::*, more::{canon::*, *}, parsers::*, *};
    /// # use std::net::*;
    /// let host = "192.0.2.49/28".parse::<Ipv4Inet>()?;
    /// assert_eq!(format!("{:?}", Ipv4InetPair::new(host, host)?.family()), "Ipv4");
    /// # Ok::<(), Box<dyn std::error::Error>>(())
    /// ```
    #[inline]
    pub const fn family(&self) -> Family {
        Family::Ipv4
    }

    /// The pair, to be printed with its prefix lengths also where they are full.
    ///
    /// ```
    /// # use cidr::{errors::*, more::{canon::*, *}, parsers::*, *};
    /// # use std::net::*;
    /// let host = "192.0.2.1".parse::<Ipv4Inet>()?;
    /// assert_eq!(format!("{}", Ipv4InetPair::new(host, host)?.with_length()), "(192.0.2.1/32, 192.0.2.1/32)");
    /// # Ok::<(), Box<dyn std::error::Error>>(())
    /// ```
    #[inline]
    pub const fn with_length(&self) -> WithLength<HostPair<Ipv4Addr>> {
        WithLength::new(*self)
    }
}

impl HostPair<Ipv6Addr> {
    /// The pair of two hosts. Returns `NotInSharedNetwork` for hosts of different prefix lengths or of different
    /// networks.
    ///
    /// ```
    /// # use cidr::{errors::*, more::{canon::*, *}, parsers::*, *};
    /// # use std::net::*;
    /// let (first, second) = ("10.0.0.1/8".parse()?, "10.0.0.3/8".parse()?);
    /// assert_eq!(format!("{}", Ipv4InetPair::new(first, second)?), "(10.0.0.1/8, 10.0.0.3/8)");
    /// # Ok::<(), Box<dyn std::error::Error>>(())
    /// ```
    ///
    /// # Errors
    ///
    /// `InetTupleError`, whose variant says whether the prefix length is above the width or the networks differ.
    #[inline]
    pub const fn new(first: Host<Ipv6Addr>, second: Host<Ipv6Addr>) -> Result<HostPair<Ipv6Addr>, InetTupleError> {
        if first.network_length() != second.network_length() {
            return Err(InetTupleError::NotInSharedNetwork);
        }
        HostPair::<Ipv6Addr>::sharing(first.address(), second.address(), first.network_length())
    }

    /// The pair of two addresses in a network of this prefix length.
    ///
    /// Returns `NetworkLengthTooLongError` for a prefix length above the width, 32 or 128, and then
    /// `NotInSharedNetwork` for addresses whose first `len` bits differ.
    ///
    /// ```
    /// # use cidr::{errors::*, more::{canon::*, *}, parsers::*, *};
    /// # use std::net::*;
    /// let (first, last) = ("192.0.2.1".parse()?, "192.0.2.129".parse()?);
    /// assert_eq!(format!("{}", Ipv4InetPair::new_from_addresses(first, last, 24)?), "(192.0.2.1/24, 192.0.2.129/24)");
    /// assert_eq!(format!("{:?}", Ipv4InetPair::new_from_addresses(first, last, 25)), "Err(addresses not in shared network)");
    /// # Ok::<(), Box<dyn std::error::Error>>(())
    /// ```
    ///
    /// # Errors
    ///
    /// `InetTupleError`, whose variant says whether the prefix length is above the width or the networks differ.
    #[inline]
    pub const fn new_from_addresses(first: Ipv6Addr, second: Ipv6Addr, len: u8) -> Result<HostPair<Ipv6Addr>, InetTupleError> {
        if len > Family::Ipv6.len() {
            return Err(InetTupleError::NetworkLengthTooLongError(NetworkLengthTooLongError::new(
                len as usize,
                Family::Ipv6,
            )));
        }
        HostPair::<Ipv6Addr>::sharing(first, second, len)
    }

    /// The pair, if both addresses begin with the same `len` bits.
    #[inline]
    const fn sharing(first: Ipv6Addr, second: Ipv6Addr, len: u8) -> Result<HostPair<Ipv6Addr>, InetTupleError> {
        if !crate::const_bits::v6::shares(first, second, len) {
            return Err(InetTupleError::NotInSharedNetwork);
        }
        Ok(HostPair { first, second, len })
    }

    /// The pair of two addresses that are known to be in one network of this prefix length.
    #[inline]
    pub(crate) const fn new_unchecked(first: Ipv6Addr, second: Ipv6Addr, len: u8) -> HostPair<Ipv6Addr> {
        HostPair { first, second, len }
    }

    /// The two addresses.
    #[inline]
    pub(crate) const fn addresses(&self) -> (Ipv6Addr, Ipv6Addr) {
        (self.first, self.second)
    }

    /// The first address, as a host with the prefix length of the pair.
    ///
    /// ```
    /// # use cidr::{errors::*, more::{canon::*, *}, parsers::*, *};
    /// # use std::net::*;
    /// let host = "192.0.2.49/28".parse::<Ipv4Inet>()?;
    /// assert_eq!(format!("{}", Ipv4InetPair::new(host, host.last())?.first()), "192.0.2.49/28");
    /// # Ok::<(), Box<dyn std::error::Error>>(())
    /// ```
    #[inline]
    pub const fn first(&self) -> Host<Ipv6Addr> {
        Host::<Ipv6Addr>::new_unchecked(self.first, self.len)
    }

    /// The second address, as a host with the prefix length of the pair.
    ///
    /// ```
    /// # use cidr::{errors::*, more::{canon::*, *}, parsers::*, *};
    /// # use std::net::*;
    /// let host = "192.0.2.49/28".parse::<Ipv4Inet>()?;
    /// assert_eq!(format!("{}", Ipv4InetPair::new(host, host.last())?.second()), "192.0.2.63/28");
    /// # Ok::<(), Box<dyn std::error::Error>>(())
    /// ```
    #[inline]
    pub const fn second(&self) -> Host<Ipv6Addr> {
        Host::<Ipv6Addr>::new_unchecked(self.second, self.len)
    }

    /// The network that both addresses are in, of the prefix length of the pair. It may have more addresses than the
    /// pair.
    ///
    /// ```
    /// # use cidr::{errors::*, more::{canon::*, *}, parsers::*, *};
    /// # use std::net::*;
    /// let host = "192.0.2.49/28".parse::<Ipv4Inet>()?;
    /// assert_eq!(format!("{}", Ipv4InetPair::new(host, host)?.network()), "192.0.2.48/28");
    /// # Ok::<(), Box<dyn std::error::Error>>(())
    /// ```
    #[inline]
    pub const fn network(&self) -> Network<Ipv6Addr> {
        self.first().network()
    }

    /// The prefix length in bits, at most 32 in IPv4 and 128 in IPv6.
    ///
    /// ```
    /// # use cidr::{errors::*, more::{canon::*, *}, parsers::*, *};
    /// # use std::net::*;
    /// let host = "192.0.2.49/28".parse::<Ipv4Inet>()?;
    /// assert_eq!(Ipv4InetPair::new(host, host)?.network_length(), 28);
    /// # Ok::<(), Box<dyn std::error::Error>>(())
    /// ```
    #[inline]
    pub const fn network_length(&self) -> u8 {
        self.len
    }

    /// The family of both addresses, which its type tells.
    ///
    /// ```
    /// # use cidr::{errors::*, more::{canon::*, *}, parsers::*, *};
    /// # use std::net::*;
    /// let host = "192.0.2.49/28".parse::<Ipv4Inet>()?;
    /// assert_eq!(format!("{:?}", Ipv4InetPair::new(host, host)?.family()), "Ipv4");
    /// # Ok::<(), Box<dyn std::error::Error>>(())
    /// ```
    #[inline]
    pub const fn family(&self) -> Family {
        Family::Ipv6
    }

    /// The pair, to be printed with its prefix lengths also where they are full.
    ///
    /// ```
    /// # use cidr::{errors::*, more::{canon::*, *}, parsers::*, *};
    /// # use std::net::*;
    /// let host = "192.0.2.1".parse::<Ipv4Inet>()?;
    /// assert_eq!(format!("{}", Ipv4InetPair::new(host, host)?.with_length()), "(192.0.2.1/32, 192.0.2.1/32)");
    /// # Ok::<(), Box<dyn std::error::Error>>(())
    /// ```
    #[inline]
    pub const fn with_length(&self) -> WithLength<HostPair<Ipv6Addr>> {
        WithLength::new(*self)
    }
}

/// The calls of `HostPair`, written once over both families.
pub trait HostPairCalls<A: AddressBits>: Sized {
    fn new(first: Host<A>, second: Host<A>) -> Result<HostPair<A>, InetTupleError>;
    fn new_from_addresses(first: A, second: A, len: u8) -> Result<HostPair<A>, InetTupleError>;
    fn sharing(first: A, second: A, len: u8) -> Result<HostPair<A>, InetTupleError>;
    fn new_unchecked(first: A, second: A, len: u8) -> HostPair<A>;
    fn addresses(&self) -> (A, A);
    fn first(&self) -> Host<A>;
    fn second(&self) -> Host<A>;
    fn network(&self) -> Network<A>;
    fn network_length(&self) -> u8;
    fn family(&self) -> Family;
    fn with_length(&self) -> WithLength<HostPair<A>>;
}

impl<A: AddressBits> HostPairCalls<A> for HostPair<A> {
    #[inline]
    fn new(first: Host<A>, second: Host<A>) -> Result<HostPair<A>, InetTupleError> {
        if first.network_length() != second.network_length() {
            return Err(InetTupleError::NotInSharedNetwork);
        }
        HostPair::<A>::sharing(first.address(), second.address(), first.network_length())
    }

    #[inline]
    fn new_from_addresses(first: A, second: A, len: u8) -> Result<HostPair<A>, InetTupleError> {
        if len > A::FAMILY.len() {
            return Err(InetTupleError::NetworkLengthTooLongError(NetworkLengthTooLongError::new(
                len as usize,
                A::FAMILY,
            )));
        }
        HostPair::<A>::sharing(first, second, len)
    }

    #[inline]
    fn sharing(first: A, second: A, len: u8) -> Result<HostPair<A>, InetTupleError> {
        if !first.shares(second, len) {
            return Err(InetTupleError::NotInSharedNetwork);
        }
        // the calls tell the proof how many bits the addresses have
        first.has_width();
        second.has_width();
        Ok(HostPair { first, second, len })
    }

    #[inline]
    fn new_unchecked(first: A, second: A, len: u8) -> HostPair<A> {
        HostPair { first, second, len }
    }

    #[inline]
    fn addresses(&self) -> (A, A) {
        (self.first, self.second)
    }

    #[inline]
    fn first(&self) -> Host<A> {
        Host::<A>::new_unchecked(self.first, self.len)
    }

    #[inline]
    fn second(&self) -> Host<A> {
        Host::<A>::new_unchecked(self.second, self.len)
    }

    #[inline]
    fn network(&self) -> Network<A> {
        self.first().network()
    }

    #[inline]
    fn network_length(&self) -> u8 {
        self.len
    }

    #[inline]
    fn family(&self) -> Family {
        A::FAMILY
    }

    #[inline]
    fn with_length(&self) -> WithLength<HostPair<A>> {
        WithLength::new(*self)
    }
}

impl<A: AddressText> HostPair<A> {
    /// The printed string, both hosts in parentheses and without a full prefix length, in an `ArrayString`, so that
    /// nothing is allocated. It has at most 40 bytes in IPv4 and 90 in IPv6.
    ///
    /// ```
    /// # use cidr::{errors::*, more::{canon::*, *}, parsers::*, *};
    /// # use std::net::*;
    /// let host = "192.0.2.1".parse::<Ipv4Inet>()?;
    /// assert_eq!(format!("{}", Ipv4InetPair::new(host, host)?.to_text()), "(192.0.2.1, 192.0.2.1)");
    /// # Ok::<(), Box<dyn std::error::Error>>(())
    /// ```
    #[inline]
    pub fn to_text(&self) -> ArrayString<90> {
        let first = plain(self.first, self.len);
        let second = plain(self.second, self.len);
        parenthesized(first.as_str(), second.as_str())
    }
}

impl<A: AddressText> WithLength<HostPair<A>> {
    /// The printed string, with the prefix lengths also where they are full: at most 40 bytes in IPv4 and 90 in IPv6.
    ///
    /// ```
    /// # use cidr::{errors::*, more::{canon::*, *}, parsers::*, *};
    /// # use std::net::*;
    /// let host = "::1".parse::<Ipv6Inet>()?;
    /// let pair = Ipv6InetPair::new(host, host)?;
    /// assert_eq!(format!("{}", pair.with_length().to_text()), "(::1/128, ::1/128)");
    /// # Ok::<(), Box<dyn std::error::Error>>(())
    /// ```
    #[inline]
    pub fn to_text(&self) -> ArrayString<90> {
        let pair = self.get();
        let first = forced(pair.first, pair.len);
        let second = forced(pair.second, pair.len);
        parenthesized(first.as_str(), second.as_str())
    }
}

impl<A: AddressBits> PartialEq for HostPair<A> {
    #[inline]
    fn eq(&self, other: &HostPair<A>) -> bool {
        self.first == other.first && self.second == other.second && self.len == other.len
    }
}

impl<A: AddressBits> Eq for HostPair<A> {}

impl<A: AddressBits> Hash for HostPair<A> {
    #[inline]
    fn hash<H: Hasher>(&self, state: &mut H) {
        self.first.hash(state);
        self.second.hash(state);
        self.len.hash(state);
    }
}

impl<A: AddressText> fmt::Display for HostPair<A> {
    #[inline]
    fn fmt(&self, f: &mut fmt::Formatter<'_>) -> fmt::Result {
        if f.alternate() {
            return f.write_str(self.with_length().to_text().as_str());
        }
        f.write_str(self.to_text().as_str())
    }
}

impl<A: AddressText> fmt::Display for WithLength<HostPair<A>> {
    #[inline]
    fn fmt(&self, f: &mut fmt::Formatter<'_>) -> fmt::Result {
        f.write_str(self.to_text().as_str())
    }
}

impl<A: AddressText> fmt::Debug for HostPair<A> {
    fn fmt(&self, f: &mut fmt::Formatter<'_>) -> fmt::Result {
        let name = match A::FAMILY {
            Family::Ipv4 => "Ipv4InetPair",
            Family::Ipv6 => "Ipv6InetPair",
        };
        f.debug_struct(name)
            .field("first", &self.first())
            .field("second", &self.second())
            .finish()
    }
}

impl InetPair for Ipv4InetPair {
    type Address = Ipv4Addr;

    #[inline]
    fn new(first: Ipv4Inet, second: Ipv4Inet) -> Result<Ipv4InetPair, InetTupleError> {
        Ipv4InetPair::new(first, second)
    }

    #[inline]
    fn new_from_addresses(
        first: Ipv4Addr,
        second: Ipv4Addr,
        len: u8,
    ) -> Result<Ipv4InetPair, InetTupleError> {
        Ipv4InetPair::new_from_addresses(first, second, len)
    }

    #[inline]
    fn first(&self) -> Ipv4Inet {
        self.first()
    }

    #[inline]
    fn second(&self) -> Ipv4Inet {
        self.second()
    }

    #[inline]
    fn network(&self) -> Ipv4Cidr {
        self.network()
    }

    #[inline]
    fn network_length(&self) -> u8 {
        self.network_length()
    }

    #[inline]
    fn family(&self) -> Family {
        self.family()
    }

    #[inline]
    fn iter(self) -> InetIterator<Ipv4Addr> {
        self.iter()
    }

}

impl InetPair for Ipv6InetPair {
    type Address = Ipv6Addr;

    #[inline]
    fn new(first: Ipv6Inet, second: Ipv6Inet) -> Result<Ipv6InetPair, InetTupleError> {
        Ipv6InetPair::new(first, second)
    }

    #[inline]
    fn new_from_addresses(
        first: Ipv6Addr,
        second: Ipv6Addr,
        len: u8,
    ) -> Result<Ipv6InetPair, InetTupleError> {
        Ipv6InetPair::new_from_addresses(first, second, len)
    }

    #[inline]
    fn first(&self) -> Ipv6Inet {
        self.first()
    }

    #[inline]
    fn second(&self) -> Ipv6Inet {
        self.second()
    }

    #[inline]
    fn network(&self) -> Ipv6Cidr {
        self.network()
    }

    #[inline]
    fn network_length(&self) -> u8 {
        self.network_length()
    }

    #[inline]
    fn family(&self) -> Family {
        self.family()
    }

    #[inline]
    fn iter(self) -> InetIterator<Ipv6Addr> {
        self.iter()
    }

}
