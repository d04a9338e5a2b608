//! Networks as the nodes of a tree of prefixes.

use cidr::names::NetworkBits;

/// Networks as the nodes of a binary tree, for `Ipv4Cidr`, `Ipv6Cidr` and `AnyIpCidr`.
///
/// A prefix length counts the bits as `len` of `BitString` does: in `AnyIpCidr` the family bit is one of them, so that
/// `Any` is the parent of 0.0.0.0/0 and of ::/0. No call allocates, and each takes constant time.
pub trait NetworkExt: Sized + NetworkBits + Copy {
    /// The network that is twice as large and contains this one, or `None` for the network of no bits.
    ///
    /// ```
    /// # use cidr::names::*;
    /// # use cidr_ext::*;
    /// assert_eq!(format!("{:?}", "10.128.0.0/9".parse::<Ipv4Cidr>()?.parent()), "Some(10.0.0.0/8)");
    /// assert_eq!(format!("{:?}", "::/0".parse::<Ipv6Cidr>()?.parent()), "None");
    /// # Ok::<(), Box<dyn std::error::Error>>(())
    /// ```
    fn parent(&self) -> Option<Self>;

    /// The network of prefix length `len` that contains this one, or `None` where `len` is above the length of this
    /// one.
    ///
    /// ```
    /// # use cidr::names::*;
    /// # use cidr_ext::*;
    /// let network = "10.128.0.0/9".parse::<Ipv4Cidr>()?;
    /// assert_eq!(format!("{:?}", network.supernet(6)), "Some(8.0.0.0/6)");
    /// assert_eq!(format!("{:?}", network.supernet(10)), "None");
    /// # Ok::<(), Box<dyn std::error::Error>>(())
    /// ```
    fn supernet(&self, len: usize) -> Option<Self>;

    /// Both halves of the network, the lower one first, or `None` for a network of full prefix length, which has only
    /// one address.
    ///
    /// ```
    /// # use cidr::names::*;
    /// # use cidr_ext::*;
    /// assert_eq!(format!("{:?}", "10.0.0.0/8".parse::<Ipv4Cidr>()?.halves()), "Some((10.0.0.0/9, 10.128.0.0/9))");
    /// # Ok::<(), Box<dyn std::error::Error>>(())
    /// ```
    fn halves(&self) -> Option<(Self, Self)>;

    /// The other half of the parent, or `None` for the network of no bits.
    ///
    /// ```
    /// # use cidr::names::*;
    /// # use cidr_ext::*;
    /// assert_eq!(format!("{:?}", "10.0.0.0/9".parse::<Ipv4Cidr>()?.sibling()), "Some(10.128.0.0/9)");
    /// # Ok::<(), Box<dyn std::error::Error>>(())
    /// ```
    fn sibling(&self) -> Option<Self>;

    /// Whether the two networks are the halves of one, in either order. No network is its own sibling.
    ///
    /// ```
    /// # use cidr::names::*;
    /// # use cidr_ext::*;
    /// let network = "10.0.0.0/9".parse::<Ipv4Cidr>()?;
    /// assert!(network.is_sibling_of(&"10.128.0.0/9".parse()?));
    /// assert!(!network.is_sibling_of(&"11.0.0.0/9".parse()?));
    /// # Ok::<(), Box<dyn std::error::Error>>(())
    /// ```
    fn is_sibling_of(&self, other: &Self) -> bool;

    /// Whether the two networks have an address in common, which is where one of them contains the other.
    ///
    /// ```
    /// # use cidr::names::*;
    /// # use cidr_ext::*;
    /// let network = "192.0.2.0/24".parse::<Ipv4Cidr>()?;
    /// assert!(network.overlaps(&"192.0.0.0/16".parse()?));
    /// assert!(!network.overlaps(&"192.0.3.0/24".parse()?));
    /// # Ok::<(), Box<dyn std::error::Error>>(())
    /// ```
    fn overlaps(&self, other: &Self) -> bool;

    /// The longest network that contains both, that is, the one with the fewest addresses.
    ///
    /// ```
    /// # use cidr::names::*;
    /// # use cidr_ext::*;
    /// let network = "192.0.2.0/24".parse::<Ipv4Cidr>()?;
    /// assert_eq!(format!("{}", network.spanning(&"192.0.3.0/25".parse()?)), "192.0.2.0/23");
    /// # Ok::<(), Box<dyn std::error::Error>>(())
    /// ```
    fn spanning(&self, other: &Self) -> Self;
}

impl<C: NetworkBits + Copy> NetworkExt for C {
    #[inline]
    fn parent(&self) -> Option<C> {
        self.supernet(self.len().checked_sub(1)?)
    }

    #[inline]
    fn supernet(&self, len: usize) -> Option<C> {
        if self.len() < len {
            return None;
        }
        let mut wider = *self;
        wider.clip(len);
        Some(wider)
    }

    #[inline]
    fn halves(&self) -> Option<(C, C)> {
        if self.room() == 0 {
            return None;
        }
        let (mut lower, mut upper) = (*self, *self);
        lower.append(false);
        upper.append(true);
        Some((lower, upper))
    }

    #[inline]
    fn sibling(&self) -> Option<C> {
        let last = self.len().checked_sub(1)?;
        let mut other = *self;
        other.flip(last);
        Some(other)
    }

    #[inline]
    fn is_sibling_of(&self, other: &C) -> bool {
        match self.sibling() {
            Some(sibling) => sibling == *other,
            None => false,
        }
    }

    #[inline]
    fn overlaps(&self, other: &C) -> bool {
        let shared = self.shared_prefix_len(other);
        shared == self.len() || shared == other.len()
    }

    #[inline]
    fn spanning(&self, other: &C) -> C {
        let mut span = *self;
        span.clip(self.shared_prefix_len(other));
        span
    }
}
