//! The pair of addresses of either family.

use crate::addr::ip::IpAddr;
use crate::cidr::combined::IpCidr;
use crate::errors::InetTupleError;
use crate::family::Family;
use crate::inet::combined::IpInet;
use crate::inet_iterator::InetIterator;
use crate::inet_pair::host_pair::{Ipv4InetPair, Ipv6InetPair};
use crate::text::with_length::WithLength;
use crate::traits::InetPair;
use cidr_support::arrayvec::ArrayString;
use core::fmt;

/// Two addresses of one IPv4 or IPv6 network, and the prefix length of that network.
///
/// It is a range of addresses, from the first to the second inclusive. The first may be above the second; the range has
/// no address then. It is printed and not parsed, and has no order.
///
/// ```
/// # use cidr::{canon::*, errors::*, parsers::*, *};
/// let host = "2001:db8::1/127".parse::<IpInet>()?;
/// assert_eq!(format!("{}", IpInetPair::new(host.first(), host)?), "(2001:db8::/127, 2001:db8::1/127)");
/// # Ok::<(), Box<dyn std::error::Error>>(())
/// ```
#[derive(Clone, Copy, Debug, PartialEq, Eq, Hash)]
pub enum IpInetPair {
    V4(Ipv4InetPair),
    V6(Ipv6InetPair),
}

impl IpInetPair {
    /// The pair of two hosts. Returns `NotInSharedNetwork` for hosts of different families, of different prefix lengths
    /// or of different networks.
    ///
    /// ```
    /// # use cidr::{canon::*, errors::*, parsers::*, *};
    /// let (first, second) = ("10.0.0.1/8".parse()?, "10.0.0.3/8".parse()?);
    /// assert_eq!(format!("{}", IpInetPair::new(first, second)?), "(10.0.0.1/8, 10.0.0.3/8)");
    /// # Ok::<(), Box<dyn std::error::Error>>(())
    /// ```
    ///
    /// # Errors
    ///
    /// `InetTupleError`, whose variant says whether the prefix length is above the width or the networks differ.
    pub fn new(first: IpInet, second: IpInet) -> Result<IpInetPair, InetTupleError> {
        match (&first, &second) {
            (IpInet::V4(first), IpInet::V4(second)) => {
                Ok(IpInetPair::V4(Ipv4InetPair::new(*first, *second)?))
            }
            (IpInet::V6(first), IpInet::V6(second)) => {
                Ok(IpInetPair::V6(Ipv6InetPair::new(*first, *second)?))
            }
            _ => Err(InetTupleError::NotInSharedNetwork),
        }
    }

    /// The pair of two addresses in a network of this prefix length.
    ///
    /// Returns `NotInSharedNetwork` for two families, whatever the prefix length; then `NetworkLengthTooLongError` for
    /// a prefix length above the width, 32 or 128; then `NotInSharedNetwork` for addresses whose first `len` bits
    /// differ.
    ///
    /// ```
    /// # use cidr::{canon::*, errors::*, parsers::*, *};
    /// let (first, second) = ("192.0.2.1".parse()?, "2001:db8::1".parse()?);
    /// assert_eq!(format!("{:?}", IpInetPair::new_from_addresses(first, second, 0)), "Err(addresses not in shared network)");
    /// # Ok::<(), Box<dyn std::error::Error>>(())
    /// ```
    ///
    /// # Errors
    ///
    /// `InetTupleError`, whose variant says whether the prefix length is above the width or the networks differ.
    pub fn new_from_addresses(
        first: IpAddr,
        second: IpAddr,
        len: u8,
    ) -> Result<IpInetPair, InetTupleError> {
        match (&first, &second) {
            (IpAddr::V4(first), IpAddr::V4(second)) => Ok(IpInetPair::V4(
                Ipv4InetPair::new_from_addresses(*first, *second, len)?,
            )),
            (IpAddr::V6(first), IpAddr::V6(second)) => Ok(IpInetPair::V6(
                Ipv6InetPair::new_from_addresses(*first, *second, len)?,
            )),
            (IpAddr::V4(_), IpAddr::V6(_)) | (IpAddr::V6(_), IpAddr::V4(_)) => {
                Err(InetTupleError::NotInSharedNetwork)
            }
        }
    }

    /// The first address, as a host with the prefix length of the pair.
    ///
    /// ```
    /// # use cidr::{canon::*, errors::*, parsers::*, *};
    /// let host = "192.0.2.49/28".parse::<IpInet>()?;
    /// assert_eq!(format!("{}", IpInetPair::new(host, host.last())?.first()), "192.0.2.49/28");
    /// # Ok::<(), Box<dyn std::error::Error>>(())
    /// ```
    #[inline]
    pub fn first(&self) -> IpInet {
        match self {
            IpInetPair::V4(pair) => IpInet::V4(pair.first()),
            IpInetPair::V6(pair) => IpInet::V6(pair.first()),
        }
    }

    /// The second address, as a host with the prefix length of the pair.
    ///
    /// ```
    /// # use cidr::{canon::*, errors::*, parsers::*, *};
    /// let host = "192.0.2.49/28".parse::<IpInet>()?;
    /// assert_eq!(format!("{}", IpInetPair::new(host, host.last())?.second()), "192.0.2.63/28");
    /// # Ok::<(), Box<dyn std::error::Error>>(())
    /// ```
    #[inline]
    pub fn second(&self) -> IpInet {
        match self {
            IpInetPair::V4(pair) => IpInet::V4(pair.second()),
            IpInetPair::V6(pair) => IpInet::V6(pair.second()),
        }
    }

    /// The network that both addresses are in, of the prefix length of the pair. It may have more addresses than the
    /// pair.
    ///
    /// ```
    /// # use cidr::{canon::*, errors::*, parsers::*, *};
    /// let host = "192.0.2.49/28".parse::<IpInet>()?;
    /// assert_eq!(format!("{}", IpInetPair::new(host, host)?.network()), "192.0.2.48/28");
    /// # Ok::<(), Box<dyn std::error::Error>>(())
    /// ```
    #[inline]
    pub fn network(&self) -> IpCidr {
        match self {
            IpInetPair::V4(pair) => IpCidr::V4(pair.network()),
            IpInetPair::V6(pair) => IpCidr::V6(pair.network()),
        }
    }

    /// The prefix length in bits, at most 32 in IPv4 and 128 in IPv6.
    ///
    /// ```
    /// # use cidr::{canon::*, errors::*, parsers::*, *};
    /// let host = "192.0.2.49/28".parse::<IpInet>()?;
    /// assert_eq!(IpInetPair::new(host, host)?.network_length(), 28);
    /// # Ok::<(), Box<dyn std::error::Error>>(())
    /// ```
    #[inline]
    pub fn network_length(&self) -> u8 {
        match self {
            IpInetPair::V4(pair) => pair.network_length(),
            IpInetPair::V6(pair) => pair.network_length(),
        }
    }

    /// The family of both addresses.
    ///
    /// ```
    /// # use cidr::{canon::*, errors::*, parsers::*, *};
    /// let host = "192.0.2.49/28".parse::<IpInet>()?;
    /// assert_eq!(format!("{:?}", IpInetPair::new(host, host)?.family()), "Ipv4");
    /// # Ok::<(), Box<dyn std::error::Error>>(())
    /// ```
    #[inline]
    pub fn family(&self) -> Family {
        match self {
            IpInetPair::V4(_) => Family::Ipv4,
            IpInetPair::V6(_) => Family::Ipv6,
        }
    }

    /// Whether this is a pair of IPv4 addresses.
    ///
    /// ```
    /// # use cidr::{canon::*, errors::*, parsers::*, *};
    /// let host = "192.0.2.49/28".parse::<IpInet>()?;
    /// assert!(IpInetPair::new(host, host)?.is_ipv4());
    /// # Ok::<(), Box<dyn std::error::Error>>(())
    /// ```
    #[inline]
    pub fn is_ipv4(&self) -> bool {
        matches!(self, IpInetPair::V4(_))
    }

    /// Whether this is a pair of IPv6 addresses.
    ///
    /// ```
    /// # use cidr::{canon::*, errors::*, parsers::*, *};
    /// let host = "192.0.2.49/28".parse::<IpInet>()?;
    /// assert!(!IpInetPair::new(host, host)?.is_ipv6());
    /// # Ok::<(), Box<dyn std::error::Error>>(())
    /// ```
    #[inline]
    pub fn is_ipv6(&self) -> bool {
        matches!(self, IpInetPair::V6(_))
    }

    /// The hosts from the first address to the second inclusive, ascending, with the prefix length of the pair. There
    /// are none where the first is above the second.
    ///
    /// ```
    /// # use cidr::{canon::*, errors::*, parsers::*, *};
    /// let host = "192.0.2.49/28".parse::<IpInet>()?;
    /// assert_eq!(format!("{:?}", IpInetPair::new(host, host.last())?.iter().count()), "Some(15)");
    /// # Ok::<(), Box<dyn std::error::Error>>(())
    /// ```
    #[inline]
    pub fn iter(self) -> InetIterator<IpAddr> {
        InetIterator::_new(self)
    }

    /// The printed string, both hosts in parentheses and without a full prefix length, in an `ArrayString`, so that
    /// nothing is allocated. It has at most 90 bytes.
    ///
    /// ```
    /// # use cidr::{canon::*, errors::*, parsers::*, *};
    /// let host = "192.0.2.1".parse::<IpInet>()?;
    /// assert_eq!(format!("{}", IpInetPair::new(host, host)?.to_text()), "(192.0.2.1, 192.0.2.1)");
    /// # Ok::<(), Box<dyn std::error::Error>>(())
    /// ```
    #[inline]
    pub fn to_text(&self) -> ArrayString<90> {
        match self {
            IpInetPair::V4(pair) => pair.to_text(),
            IpInetPair::V6(pair) => pair.to_text(),
        }
    }

    /// The pair, to be printed with its prefix lengths also where they are full.
    ///
    /// ```
    /// # use cidr::{canon::*, errors::*, parsers::*, *};
    /// let host = "192.0.2.1".parse::<IpInet>()?;
    /// assert_eq!(format!("{}", IpInetPair::new(host, host)?.with_length()), "(192.0.2.1/32, 192.0.2.1/32)");
    /// # Ok::<(), Box<dyn std::error::Error>>(())
    /// ```
    #[inline]
    pub fn with_length(&self) -> WithLength<IpInetPair> {
        WithLength::new(*self)
    }
}

impl WithLength<IpInetPair> {
    /// The printed string, with the prefix lengths also where they are full: at most 90 bytes.
    ///
    /// ```
    /// # use cidr::{canon::*, errors::*, parsers::*, *};
    /// let host = "::1".parse::<IpInet>()?;
    /// let pair = IpInetPair::new(host, host)?;
    /// assert_eq!(format!("{}", pair.with_length().to_text()), "(::1/128, ::1/128)");
    /// # Ok::<(), Box<dyn std::error::Error>>(())
    /// ```
    #[inline]
    pub fn to_text(&self) -> ArrayString<90> {
        match self.get() {
            IpInetPair::V4(pair) => pair.with_length().to_text(),
            IpInetPair::V6(pair) => pair.with_length().to_text(),
        }
    }
}

impl IntoIterator for IpInetPair {
    type Item = IpInet;

    type IntoIter = InetIterator<IpAddr>;

    #[inline]
    fn into_iter(self) -> InetIterator<IpAddr> {
        self.iter()
    }
}

impl From<Ipv4InetPair> for IpInetPair {
    #[inline]
    fn from(pair: Ipv4InetPair) -> IpInetPair {
        IpInetPair::V4(pair)
    }
}

impl From<Ipv6InetPair> for IpInetPair {
    #[inline]
    fn from(pair: Ipv6InetPair) -> IpInetPair {
        IpInetPair::V6(pair)
    }
}

impl fmt::Display for IpInetPair {
    #[inline]
    fn fmt(&self, f: &mut fmt::Formatter<'_>) -> fmt::Result {
        f.write_str(self.to_text().as_str())
    }
}

impl fmt::Display for WithLength<IpInetPair> {
    #[inline]
    fn fmt(&self, f: &mut fmt::Formatter<'_>) -> fmt::Result {
        f.write_str(self.to_text().as_str())
    }
}

impl InetPair for IpInetPair {
    type Address = IpAddr;

    #[inline]
    fn new(first: IpInet, second: IpInet) -> Result<IpInetPair, InetTupleError> {
        IpInetPair::new(first, second)
    }

    #[inline]
    fn new_from_addresses(
        first: IpAddr,
        second: IpAddr,
        len: u8,
    ) -> Result<IpInetPair, InetTupleError> {
        IpInetPair::new_from_addresses(first, second, len)
    }

    #[inline]
    fn first(&self) -> IpInet {
        self.first()
    }

    #[inline]
    fn second(&self) -> IpInet {
        self.second()
    }

    #[inline]
    fn network(&self) -> IpCidr {
        self.network()
    }

    #[inline]
    fn network_length(&self) -> u8 {
        self.network_length()
    }

    #[inline]
    fn family(&self) -> Family {
        self.family()
    }

    #[inline]
    fn iter(self) -> InetIterator<IpAddr> {
        self.iter()
    }

}
