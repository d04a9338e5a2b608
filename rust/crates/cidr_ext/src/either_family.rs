//! Networks of either family as the nodes of two trees of prefixes.

use crate::network::NetworkExt;
use cidr::{Cidr, IpCidr};

/// The calls of `NetworkExt` on `IpCidr`, in which each family has a tree of its own: 0.0.0.0/0 and ::/0 have no
/// parent, and no network contains both.
///
/// The result is of the family of the network. No call allocates, and each takes constant time.
pub trait IpCidrExt: Sized + Cidr {
    /// The network that is twice as large and contains this one, or `None` for 0.0.0.0/0 and ::/0.
    ///
    /// ```
    /// # use cidr::*;
    /// # use cidr_ext::*;
    /// assert_eq!(format!("{:?}", "10.128.0.0/9".parse::<IpCidr>()?.parent()), "Some(V4(10.0.0.0/8))");
    /// # Ok::<(), Box<dyn std::error::Error>>(())
    /// ```
    fn parent(&self) -> Option<Self>;

    /// The network of prefix length `len` that contains this one, or `None` where `len` is above the length of this
    /// one.
    ///
    /// ```
    /// # use cidr::*;
    /// # use cidr_ext::*;
    /// assert_eq!(format!("{:?}", "2001:db8::/48".parse::<IpCidr>()?.supernet(32)), "Some(V6(2001:db8::/32))");
    /// # Ok::<(), Box<dyn std::error::Error>>(())
    /// ```
    fn supernet(&self, len: u8) -> Option<Self>;

    /// Both halves of the network, the lower one first, or `None` for a network of full prefix length, 32 or 128.
    ///
    /// ```
    /// # use cidr::*;
    /// # use cidr_ext::*;
    /// assert_eq!(format!("{:?}", "10.0.0.0/8".parse::<IpCidr>()?.halves()), "Some((V4(10.0.0.0/9), V4(10.128.0.0/9)))");
    /// # Ok::<(), Box<dyn std::error::Error>>(())
    /// ```
    fn halves(&self) -> Option<(Self, Self)>;

    /// The other half of the parent, or `None` for 0.0.0.0/0 and ::/0.
    ///
    /// ```
    /// # use cidr::*;
    /// # use cidr_ext::*;
    /// assert_eq!(format!("{:?}", "10.0.0.0/9".parse::<IpCidr>()?.sibling()), "Some(V4(10.128.0.0/9))");
    /// # Ok::<(), Box<dyn std::error::Error>>(())
    /// ```
    fn sibling(&self) -> Option<Self>;

    /// Whether the two networks are the halves of one, in either order. No network is its own sibling.
    ///
    /// ```
    /// # use cidr::*;
    /// # use cidr_ext::*;
    /// let network = "10.0.0.0/9".parse::<IpCidr>()?;
    /// assert!(network.is_sibling_of(&"10.128.0.0/9".parse()?));
    /// # Ok::<(), Box<dyn std::error::Error>>(())
    /// ```
    fn is_sibling_of(&self, other: &Self) -> bool;

    /// Whether the two networks have an address in common, which is where one of them contains the other.
    ///
    /// ```
    /// # use cidr::*;
    /// # use cidr_ext::*;
    /// let network = "192.0.2.0/24".parse::<IpCidr>()?;
    /// assert!(network.overlaps(&"192.0.0.0/16".parse()?));
    /// assert!(!network.overlaps(&"::/0".parse()?));
    /// # Ok::<(), Box<dyn std::error::Error>>(())
    /// ```
    fn overlaps(&self, other: &Self) -> bool;

    /// The longest network that contains both, or `None` for two families.
    ///
    /// ```
    /// # use cidr::*;
    /// # use cidr_ext::*;
    /// let network = "192.0.2.0/24".parse::<IpCidr>()?;
    /// assert_eq!(format!("{:?}", network.spanning(&"192.0.3.0/25".parse()?)), "Some(V4(192.0.2.0/23))");
    /// assert_eq!(format!("{:?}", network.spanning(&"2001:db8::/32".parse()?)), "None");
    /// # Ok::<(), Box<dyn std::error::Error>>(())
    /// ```
    fn spanning(&self, other: &Self) -> Option<Self>;
}

impl IpCidrExt for IpCidr {
    #[inline]
    fn parent(&self) -> Option<IpCidr> {
        match self {
            IpCidr::V4(network) => Some(IpCidr::V4(network.parent()?)),
            IpCidr::V6(network) => Some(IpCidr::V6(network.parent()?)),
        }
    }

    #[inline]
    fn supernet(&self, len: u8) -> Option<IpCidr> {
        match self {
            IpCidr::V4(network) => Some(IpCidr::V4(network.supernet(usize::from(len))?)),
            IpCidr::V6(network) => Some(IpCidr::V6(network.supernet(usize::from(len))?)),
        }
    }

    fn halves(&self) -> Option<(IpCidr, IpCidr)> {
        match self {
            IpCidr::V4(network) => {
                let (lower, upper) = network.halves()?;
                Some((IpCidr::V4(lower), IpCidr::V4(upper)))
            }
            IpCidr::V6(network) => {
                let (lower, upper) = network.halves()?;
                Some((IpCidr::V6(lower), IpCidr::V6(upper)))
            }
        }
    }

    #[inline]
    fn sibling(&self) -> Option<IpCidr> {
        match self {
            IpCidr::V4(network) => Some(IpCidr::V4(network.sibling()?)),
            IpCidr::V6(network) => Some(IpCidr::V6(network.sibling()?)),
        }
    }

    #[inline]
    fn is_sibling_of(&self, other: &IpCidr) -> bool {
        match (self, other) {
            (IpCidr::V4(network), IpCidr::V4(other)) => network.is_sibling_of(other),
            (IpCidr::V6(network), IpCidr::V6(other)) => network.is_sibling_of(other),
            _ => false,
        }
    }

    #[inline]
    fn overlaps(&self, other: &IpCidr) -> bool {
        match (self, other) {
            (IpCidr::V4(network), IpCidr::V4(other)) => network.overlaps(other),
            (IpCidr::V6(network), IpCidr::V6(other)) => network.overlaps(other),
            _ => false,
        }
    }

    #[inline]
    fn spanning(&self, other: &IpCidr) -> Option<IpCidr> {
        match (self, other) {
            (IpCidr::V4(network), IpCidr::V4(other)) => Some(IpCidr::V4(network.spanning(other))),
            (IpCidr::V6(network), IpCidr::V6(other)) => Some(IpCidr::V6(network.spanning(other))),
            _ => None,
        }
    }
}
