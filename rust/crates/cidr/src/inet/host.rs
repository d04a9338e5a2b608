//! The hosts of one family.
//!
//! The steps of IPv4 hosts that are a `u32` stand beside, in `v4`; the compact bytes in `compact::one_family`, and the
//! bits of a host's network as a string in `bits::host`.

use crate::addr::v4::Ipv4Addr;
use crate::addr::v6::Ipv6Addr;
use crate::cidr::network::Network;
use crate::errors::{NetworkLengthTooLongError, NetworkParseError};
use crate::family::Family;
use crate::internal_traits::address_bits::{AddressBits, AddressText};
use crate::text::print::{append, forced, plain};
use crate::text::read::{cut_at_last_slash, read_length};
use crate::text::with_length::WithLength;
use cidr_support::arrayvec::ArrayString;
use core::cmp::Ordering;
use core::fmt;
use core::hash::{Hash, Hasher};
use core::ops::{Add, Sub};
use core::str::FromStr;

/// A host of one family: an address in its network, as 192.0.2.50/28 or 2001:db8::5/32. `Ipv4Inet` and `Ipv6Inet` are
/// its two types; PostgreSQL's type `inet` is alike.
///
/// It keeps all bits of the address, and its prefix length, at most 32 in IPv4 and 128 in IPv6, says which network it
/// is in. Steps stay in the network: they change the bits after the prefix only. Hosts are ordered by address and then
/// by prefix length. A string is parsed as that of a network is, but that a set bit after the prefix is no error; with
/// no slash it is a host of full prefix length.
///
/// ```
/// # use cidr::{canon::*, errors::*, parsers::*, *};
/// assert_eq!(format!("{}", "192.0.2.50/28".parse::<Ipv4Inet>()?), "192.0.2.50/28");
/// assert!("192.0.2.50/33".parse::<Ipv4Inet>().is_err());
/// # Ok::<(), Box<dyn std::error::Error>>(())
/// ```
pub struct Host<A: AddressBits> {
    address: A,
    len: u8,
}

/// An IPv4 host, as 192.0.2.50/28: the prefix length is at most 32.
///
/// Its calls stand on the page of [`Host`](crate::Host), of which it is a type.
///
/// ```
/// # use cidr::{canon::*, errors::*, parsers::*, *};
/// let host = Ipv4Inet::new(Ipv4Addr::new(192, 0, 2, 50), 28)?;
/// assert_eq!(format!("{}", host.address()), "192.0.2.50");
/// assert_eq!(format!("{}", host.network()), "192.0.2.48/28");
/// # Ok::<(), Box<dyn std::error::Error>>(())
/// ```
pub type Ipv4Inet = Host<Ipv4Addr>;

/// An IPv6 host, as 2001:db8::5/32: the prefix length is at most 128.
///
/// Its calls stand on the page of [`Host`](crate::Host), of which it is a type.
///
/// ```
/// # use cidr::{canon::*, errors::*, parsers::*, *};
/// let host = Ipv6Inet::new("2001:db8::5".parse()?, 32)?;
/// assert_eq!(format!("{}", host.address()), "2001:db8::5");
/// assert_eq!(format!("{}", host.network()), "2001:db8::/32");
/// # Ok::<(), Box<dyn std::error::Error>>(())
/// ```
pub type Ipv6Inet = Host<Ipv6Addr>;

impl<A: AddressBits> Clone for Host<A> {
    #[inline]
    fn clone(&self) -> Host<A> {
        *self
    }
}

impl<A: AddressBits> Copy for Host<A> {}

impl<A: AddressBits> Host<A> {
    /// The host of an address in the network of its first `len` bits.
    ///
    /// Returns an error only for a prefix length above the width, 32 or 128.
    ///
    /// ```
    /// # use cidr::{canon::*, errors::*, parsers::*, *};
    /// assert_eq!(format!("{}", Ipv4Inet::new(Ipv4Addr::new(192, 0, 2, 50), 28)?), "192.0.2.50/28");
    /// assert!(Ipv6Inet::new(Ipv6Addr::from_bits(1), 129).is_err());
    /// # Ok::<(), Box<dyn std::error::Error>>(())
    /// ```
    ///
    /// # Errors
    ///
    /// `NetworkLengthTooLongError` for a prefix length above the width, 32 or 128.
    #[inline]
    pub fn new(addr: A, len: u8) -> Result<Host<A>, NetworkLengthTooLongError> {
        if len > A::FAMILY.len() {
            return Err(NetworkLengthTooLongError::new(len as usize, A::FAMILY));
        }
        Ok(Host::new_unchecked(addr, len))
    }

    /// The host of an address and a prefix length that is known to be within the width.
    #[inline]
    pub(crate) fn new_unchecked(addr: A, len: u8) -> Host<A> {
        // the call tells the proof how many bits the address has
        addr.has_width();
        Host { address: addr, len }
    }

    /// The host of full prefix length, whose network has only this address: /32 in IPv4 and /128 in IPv6. It is printed
    /// without the prefix length.
    ///
    /// ```
    /// # use cidr::{canon::*, errors::*, parsers::*, *};
    /// assert_eq!(format!("{}", Ipv4Inet::new_host(Ipv4Addr::new(192, 0, 2, 1))), "192.0.2.1");
    /// assert_eq!(format!("{}", Ipv6Inet::new_host(Ipv6Addr::from_bits(1))), "::1");
    /// # Ok::<(), Box<dyn std::error::Error>>(())
    /// ```
    #[inline]
    pub fn new_host(addr: A) -> Host<A> {
        Host::new_unchecked(addr, A::FAMILY.len())
    }

    /// Steps to the next address of the network. From the last one it wraps to the first, and returns true.
    ///
    /// ```
    /// # use cidr::{canon::*, errors::*, parsers::*, *};
    /// let mut host = "192.0.2.63/28".parse::<Ipv4Inet>()?;
    /// assert!(host.increment());
    /// assert_eq!(format!("{}", host), "192.0.2.48/28");
    /// # Ok::<(), Box<dyn std::error::Error>>(())
    /// ```
    #[inline]
    pub fn increment(&mut self) -> bool {
        let (next, wraps) = self.overflowing_add(1);
        *self = next;
        wraps
    }

    /// Steps to the previous address of the network. From the first one it wraps to the last, and returns true.
    ///
    /// ```
    /// # use cidr::{canon::*, errors::*, parsers::*, *};
    /// let mut host = "2001:db8::/112".parse::<Ipv6Inet>()?;
    /// assert!(host.decrement());
    /// assert_eq!(format!("{}", host), "2001:db8::ffff/112");
    /// # Ok::<(), Box<dyn std::error::Error>>(())
    /// ```
    #[inline]
    pub fn decrement(&mut self) -> bool {
        let (previous, wraps) = self.overflowing_sub(1);
        *self = previous;
        wraps
    }

    /// The host at the next address of the network, or `None` at the last one. It takes and returns a value, and is not
    /// `Iterator::next`.
    ///
    /// ```
    /// # use cidr::{canon::*, errors::*, parsers::*, *};
    /// assert_eq!(format!("{:?}", "192.0.2.62/28".parse::<Ipv4Inet>()?.next()), "Some(192.0.2.63/28)");
    /// assert_eq!(format!("{:?}", "192.0.2.63/28".parse::<Ipv4Inet>()?.next()), "None");
    /// # Ok::<(), Box<dyn std::error::Error>>(())
    /// ```
    #[inline]
    pub fn next(self) -> Option<Host<A>> {
        let (stepped, wraps) = self.overflowing_add(1);
        if wraps { None } else { Some(stepped) }
    }

    /// The host at the previous address of the network, or `None` at the first one.
    ///
    /// ```
    /// # use cidr::{canon::*, errors::*, parsers::*, *};
    /// assert_eq!(format!("{:?}", "192.0.2.49/28".parse::<Ipv4Inet>()?.previous()), "Some(192.0.2.48/28)");
    /// assert_eq!(format!("{:?}", "192.0.2.48/28".parse::<Ipv4Inet>()?.previous()), "None");
    /// # Ok::<(), Box<dyn std::error::Error>>(())
    /// ```
    #[inline]
    pub fn previous(self) -> Option<Host<A>> {
        let (stepped, wraps) = self.overflowing_sub(1);
        if wraps { None } else { Some(stepped) }
    }

    /// The host `step` addresses further in the network, and whether it wrapped from the last address to the first.
    ///
    /// Any step is exact, also one above the number of addresses, and takes constant time. Where it does not wrap, `+`
    /// returns the same host.
    ///
    /// ```
    /// # use cidr::{canon::*, errors::*, parsers::*, *};
    /// let host = "192.0.2.50/28".parse::<Ipv4Inet>()?;
    /// assert_eq!(format!("{:?}", host.overflowing_add(5)), "(192.0.2.55/28, false)");
    /// assert_eq!(format!("{:?}", host.overflowing_add(14)), "(192.0.2.48/28, true)");
    /// # Ok::<(), Box<dyn std::error::Error>>(())
    /// ```
    #[inline]
    pub fn overflowing_add(self, step: u128) -> (Host<A>, bool) {
        let (stepped, wraps) = self.address.step_up(self.len, step);
        (Host::new_unchecked(stepped, self.len), wraps)
    }

    /// The host `step` addresses back in the network, and whether it wrapped from the first address to the last.
    ///
    /// Any step is exact, also one above the number of addresses, and takes constant time. Where it does not wrap, `-`
    /// returns the same host.
    ///
    /// ```
    /// # use cidr::{canon::*, errors::*, parsers::*, *};
    /// let host = "10.0.0.7/29".parse::<Ipv4Inet>()?;
    /// assert_eq!(format!("{:?}", host.overflowing_sub(7)), "(10.0.0.0/29, false)");
    /// assert_eq!(format!("{:?}", host.overflowing_sub(8)), "(10.0.0.7/29, true)");
    /// # Ok::<(), Box<dyn std::error::Error>>(())
    /// ```
    #[inline]
    pub fn overflowing_sub(self, step: u128) -> (Host<A>, bool) {
        let (stepped, wraps) = self.address.step_down(self.len, step);
        (Host::new_unchecked(stepped, self.len), wraps)
    }

    /// The network that the host is in: the bits after the prefix are unset.
    ///
    /// ```
    /// # use cidr::{canon::*, errors::*, parsers::*, *};
    /// assert_eq!(format!("{}", "192.0.2.50/28".parse::<Ipv4Inet>()?.network()), "192.0.2.48/28");
    /// # Ok::<(), Box<dyn std::error::Error>>(())
    /// ```
    #[inline]
    pub fn network(&self) -> Network<A> {
        Network::holding(self.address, self.len)
    }

    /// The address, without the prefix length.
    ///
    /// ```
    /// # use cidr::{canon::*, errors::*, parsers::*, *};
    /// assert_eq!(format!("{}", "192.0.2.50/28".parse::<Ipv4Inet>()?.address()), "192.0.2.50");
    /// # Ok::<(), Box<dyn std::error::Error>>(())
    /// ```
    #[inline]
    pub fn address(&self) -> A {
        self.address
    }

    /// The address, by reference.
    ///
    /// ```
    /// # use cidr::{canon::*, errors::*, parsers::*, *};
    /// assert_eq!(format!("{}", "192.0.2.50/28".parse::<Ipv4Inet>()?.address_ref()), "192.0.2.50");
    /// # Ok::<(), Box<dyn std::error::Error>>(())
    /// ```
    #[inline]
    pub fn address_ref(&self) -> &A {
        &self.address
    }

    /// The first address of the network, in which no bit after the prefix is set: in IPv4 the network address, up to
    /// /30.
    ///
    /// ```
    /// # use cidr::{canon::*, errors::*, parsers::*, *};
    /// assert_eq!(format!("{}", "192.0.2.50/28".parse::<Ipv4Inet>()?.first_address()), "192.0.2.48");
    /// # Ok::<(), Box<dyn std::error::Error>>(())
    /// ```
    #[inline]
    pub fn first_address(&self) -> A {
        self.address.first_in(self.len)
    }

    /// The last address of the network, in which all bits after the prefix are set: in IPv4 the broadcast address, up
    /// to /30.
    ///
    /// ```
    /// # use cidr::{canon::*, errors::*, parsers::*, *};
    /// assert_eq!(format!("{}", "192.0.2.50/28".parse::<Ipv4Inet>()?.last_address()), "192.0.2.63");
    /// # Ok::<(), Box<dyn std::error::Error>>(())
    /// ```
    #[inline]
    pub fn last_address(&self) -> A {
        self.address.last_in(self.len)
    }

    /// The host at the first address of the network, with the same prefix length.
    ///
    /// ```
    /// # use cidr::{canon::*, errors::*, parsers::*, *};
    /// assert_eq!(format!("{}", "10.4.3.2/8".parse::<Ipv4Inet>()?.first()), "10.0.0.0/8");
    /// # Ok::<(), Box<dyn std::error::Error>>(())
    /// ```
    #[inline]
    pub fn first(&self) -> Host<A> {
        Host::new_unchecked(self.first_address(), self.len)
    }

    /// The host at the last address of the network, with the same prefix length.
    ///
    /// ```
    /// # use cidr::{canon::*, errors::*, parsers::*, *};
    /// assert_eq!(format!("{}", "10.4.3.2/8".parse::<Ipv4Inet>()?.last()), "10.255.255.255/8");
    /// # Ok::<(), Box<dyn std::error::Error>>(())
    /// ```
    #[inline]
    pub fn last(&self) -> Host<A> {
        Host::new_unchecked(self.last_address(), self.len)
    }

    /// The prefix length in bits, at most 32 in IPv4 and 128 in IPv6.
    ///
    /// ```
    /// # use cidr::{canon::*, errors::*, parsers::*, *};
    /// assert_eq!("::5/32".parse::<Ipv6Inet>()?.network_length(), 32);
    /// # Ok::<(), Box<dyn std::error::Error>>(())
    /// ```
    #[inline]
    pub fn network_length(&self) -> u8 {
        self.len
    }

    /// The family of the address, which its type tells.
    ///
    /// ```
    /// # use cidr::{canon::*, errors::*, parsers::*, *};
    /// assert_eq!(format!("{:?}", "2001:db8::5/32".parse::<Ipv6Inet>()?.family()), "Ipv6");
    /// # Ok::<(), Box<dyn std::error::Error>>(())
    /// ```
    #[inline]
    pub fn family(&self) -> Family {
        A::FAMILY
    }

    /// Whether the network of the host has only one address, that is, whether the prefix length is full: 32 in IPv4 and
    /// 128 in IPv6.
    ///
    /// ```
    /// # use cidr::{canon::*, errors::*, parsers::*, *};
    /// assert!("192.0.2.50".parse::<Ipv4Inet>()?.is_host_address());
    /// assert!(!("10.4.3.2/8".parse::<Ipv4Inet>()?.is_host_address()));
    /// # Ok::<(), Box<dyn std::error::Error>>(())
    /// ```
    #[inline]
    pub fn is_host_address(&self) -> bool {
        self.len == A::FAMILY.len()
    }

    /// The network mask: as many set bits as the prefix length says, then zeros.
    ///
    /// ```
    /// # use cidr::{canon::*, errors::*, parsers::*, *};
    /// assert_eq!(format!("{}", "192.0.2.50/28".parse::<Ipv4Inet>()?.mask()), "255.255.255.240");
    /// # Ok::<(), Box<dyn std::error::Error>>(())
    /// ```
    #[inline]
    pub fn mask(&self) -> A {
        A::mask_of(self.len)
    }

    /// Whether the address is in the network of the host, that is, begins with its prefix. Nothing is mapped: an IPv6
    /// host contains no IPv4 address.
    ///
    /// ```
    /// # use cidr::{canon::*, errors::*, parsers::*, *};
    /// let host = "192.0.2.50/28".parse::<Ipv4Inet>()?;
    /// assert!(host.contains(&Ipv4Addr::new(192, 0, 2, 63)));
    /// assert!(!host.contains(&Ipv4Addr::new(192, 0, 2, 64)));
    /// # Ok::<(), Box<dyn std::error::Error>>(())
    /// ```
    #[inline]
    pub fn contains(&self, addr: &A) -> bool {
        self.address.shares(*addr, self.len)
    }

    /// The host, to be printed with its prefix length also where that is full.
    ///
    /// ```
    /// # use cidr::{canon::*, errors::*, parsers::*, *};
    /// assert_eq!(format!("{}", "10.0.0.1".parse::<Ipv4Inet>()?.with_length()), "10.0.0.1/32");
    /// # Ok::<(), Box<dyn std::error::Error>>(())
    /// ```
    #[inline]
    pub fn with_length(&self) -> WithLength<Host<A>> {
        WithLength::new(*self)
    }
}

impl<A: AddressText> Host<A> {
    /// The printed string, with all bits of the address and without a full prefix length, in an `ArrayString`, so that
    /// nothing is allocated. It has at most 18 bytes in IPv4 and 43 in IPv6. Parsing it gives the same host.
    ///
    /// ```
    /// # use cidr::{canon::*, errors::*, parsers::*, *};
    /// assert_eq!(format!("{}", "2001:DB8::5/32".parse::<Ipv6Inet>()?.to_text()), "2001:db8::5/32");
    /// # Ok::<(), Box<dyn std::error::Error>>(())
    /// ```
    #[inline]
    pub fn to_text(&self) -> ArrayString<43> {
        plain(self.address, self.len)
    }

    /// Appends the printed string, as `to_text` gives it, to one that the caller has. Where there is no room for the whole
    /// of it, it fails, and the string is as it was.
    ///
    /// ```
    /// # use cidr::{canon::*, errors::*, parsers::*, *};
    /// use cidr_support::arrayvec::ArrayString;
    /// let mut text = ArrayString::<43>::new();
    /// "10.4.3.2/8".parse::<Ipv4Inet>()?.write_to(&mut text)?;
    /// assert_eq!(format!("{}", text), "10.4.3.2/8");
    /// # Ok::<(), Box<dyn std::error::Error>>(())
    /// ```
    ///
    /// # Errors
    ///
    /// `fmt::Error` where there is no room for the whole string, and then nothing is appended.
    #[inline]
    pub fn write_to<const CAP: usize>(&self, text: &mut ArrayString<CAP>) -> fmt::Result {
        append(text, self.to_text().as_str())
    }
}

impl<A: AddressText> WithLength<Host<A>> {
    /// The printed string, with the prefix length also where that is full: at most 18 bytes in IPv4 and 43 in IPv6.
    /// Parsing it gives the same host.
    ///
    /// ```
    /// # use cidr::{canon::*, errors::*, parsers::*, *};
    /// assert_eq!(format!("{}", "::1".parse::<Ipv6Inet>()?.with_length().to_text()), "::1/128");
    /// # Ok::<(), Box<dyn std::error::Error>>(())
    /// ```
    #[inline]
    pub fn to_text(&self) -> ArrayString<43> {
        let host = self.get();
        forced(host.address(), host.network_length())
    }
}

impl<A: AddressBits> PartialEq for Host<A> {
    #[inline]
    fn eq(&self, other: &Host<A>) -> bool {
        self.address == other.address && self.len == other.len
    }
}

impl<A: AddressBits> Eq for Host<A> {}

impl<A: AddressBits> PartialOrd for Host<A> {
    #[inline]
    fn partial_cmp(&self, other: &Host<A>) -> Option<Ordering> {
        Some(self.cmp(other))
    }
}

impl<A: AddressBits> Ord for Host<A> {
    #[inline]
    fn cmp(&self, other: &Host<A>) -> Ordering {
        self.address.order(self.len, other.address, other.len)
    }
}

impl<A: AddressBits> Hash for Host<A> {
    #[inline]
    fn hash<H: Hasher>(&self, state: &mut H) {
        self.address.hash(state);
        self.len.hash(state);
    }
}

impl<A: AddressBits> From<A> for Host<A> {
    #[inline]
    fn from(address: A) -> Host<A> {
        Host::new_host(address)
    }
}

impl<A: AddressText> FromStr for Host<A> {
    type Err = NetworkParseError;

    #[inline]
    fn from_str(s: &str) -> Result<Host<A>, NetworkParseError> {
        let Some((front, back)) = cut_at_last_slash(s) else {
            return Ok(Host::new_host(A::read(s)?));
        };
        let address = A::read(front)?;
        let len = read_length(back)?;
        Ok(Host::new(address, len)?)
    }
}

impl<A: AddressText> fmt::Display for Host<A> {
    #[inline]
    fn fmt(&self, f: &mut fmt::Formatter<'_>) -> fmt::Result {
        f.write_str(self.to_text().as_str())
    }
}

impl<A: AddressText> fmt::Display for WithLength<Host<A>> {
    #[inline]
    fn fmt(&self, f: &mut fmt::Formatter<'_>) -> fmt::Result {
        f.write_str(self.to_text().as_str())
    }
}

impl<A: AddressText> fmt::Debug for Host<A> {
    #[inline]
    fn fmt(&self, f: &mut fmt::Formatter<'_>) -> fmt::Result {
        fmt::Display::fmt(&self.with_length(), f)
    }
}

/// The host `step` addresses further in the network, as `overflowing_add` returns it. The caller has to ensure that the
/// step does not wrap; `overflowing_add` and `next` tell whether it does.
///
/// # Panics
///
/// Unless `!self.overflowing_add(step).1`.
impl<A: AddressBits> Add<u128> for Host<A> {
    type Output = Host<A>;

    #[inline]
    fn add(self, step: u128) -> Host<A> {
        assert!(!self.overflowing_add(step).1);
        self.overflowing_add(step).0
    }
}

/// The host `step` addresses back in the network, as `overflowing_sub` returns it. The caller has to ensure that the
/// step does not wrap; `overflowing_sub` and `previous` tell whether it does.
///
/// # Panics
///
/// Unless `!self.overflowing_sub(step).1`.
impl<A: AddressBits> Sub<u128> for Host<A> {
    type Output = Host<A>;

    #[inline]
    fn sub(self, step: u128) -> Host<A> {
        assert!(!self.overflowing_sub(step).1);
        self.overflowing_sub(step).0
    }
}
