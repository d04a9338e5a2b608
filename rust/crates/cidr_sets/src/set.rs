//! The set: its networks are in normal form.

use cidr_support::vec::Vec;
use crate::probe::{Networks, contains};
use cidr::NetworkBits;
use cidr_table::least_cover_in_place;
use cidr_support::alloc::{AllocError, Global};
use core::slice::Iter;

mod algebra;
mod compared;
mod counted;
mod debug;
mod edits;

/// A set of addresses: the shortest list of networks that has exactly these, ascending.
///
/// No network of the list contains another, and no two are the halves of one. Two sets have the same addresses exactly
/// if their lists are equal. Of `AnyIpCidr`, a set has addresses of both families. It keeps nothing but its networks.
/// Sets are ordered as their lists are: by the first network that differs, and a beginning of another list comes first.
pub struct NetworkSet<C: NetworkBits + Copy> {
    networks: Vec<C>,
}

impl<C: NetworkBits + Copy> NetworkSet<C> {
    /// The empty set. It allocates nothing.
    ///
    /// ```
    /// # use cidr::*;
    /// # use cidr_table::Probe;
    /// # use cidr_sets::{access::*, alloc::*, *};
    /// assert!(NetworkSet::<Ipv4Cidr>::new(Global).is_empty());
    /// # Ok::<(), Box<dyn std::error::Error>>(())
    /// ```
    #[inline]
    pub fn new(alloc: Global) -> Self {
        NetworkSet {
            networks: Vec::new(alloc),
        }
    }

    /// The set of the addresses of some networks, which may come in any order, overlap and repeat.
    ///
    /// It allocates room for as many networks as there are, once, and sorts them: O(n log n), some 70 ns for each of a
    /// million of IPv4, and 15 to 20 where they ascend. Of many lists or sets, take the networks one behind the other:
    /// that of 16 takes 0.3 to 0.7 of the time of 15 unions in turn. Where the allocation fails, it returns the error.
    ///
    /// ```
    /// # use cidr::*;
    /// # use cidr_table::Probe;
    /// # use cidr_sets::{access::*, alloc::*, *};
    /// let lower: Ipv4Cidr = "10.0.0.0/9".parse()?;
    /// let upper: Ipv4Cidr = "10.128.0.0/9".parse()?;
    /// let set = NetworkSet::from_networks(Global, &[upper, lower])?;
    /// assert_eq!(format!("{:?}", set.as_slice()), "[10.0.0.0/8]");
    /// # Ok::<(), Box<dyn std::error::Error>>(())
    /// ```
    ///
    /// # Errors
    ///
    /// `AllocError` where memory runs out.
    #[inline]
    pub fn from_networks(alloc: Global, networks: &[C]) -> Result<Self, AllocError> {
        let copies = Vec::from_slice(alloc, networks)?;
        Ok(reduced(copies))
    }

    /// The set of the addresses of the networks of a `Vec`, which may come in any order, overlap and repeat.
    ///
    /// It never fails and allocates nothing: the set keeps the `Vec`, with all of its room. It sorts the networks in
    /// place, O(n log n).
    ///
    /// ```
    /// # use cidr::*;
    /// # use cidr_table::Probe;
    /// # use cidr_sets::{access::*, alloc::*, *};
    /// let lower: Ipv4Cidr = "10.0.0.0/9".parse()?;
    /// let upper: Ipv4Cidr = "10.128.0.0/9".parse()?;
    /// let networks = Vec::from_array(Global, [upper, lower]).map_err(|_| AllocError)?;
    /// assert_eq!(format!("{:?}", NetworkSet::from_vec(networks).as_slice()), "[10.0.0.0/8]");
    /// # Ok::<(), Box<dyn std::error::Error>>(())
    /// ```
    #[inline]
    pub fn from_vec(networks: Vec<C>) -> Self {
        reduced(networks)
    }

    /// The set of networks in normal form.
    #[inline]
    pub(crate) fn of_reduced(networks: Vec<C>) -> Self {
        NetworkSet { networks }
    }

    /// Whether the set has all addresses of a network. An address is asked for as the network of full prefix length.
    ///
    /// It is [`contains`](crate::contains) over `probe`: one binary search and a look at one neighbour. Where the number
    /// of networks has d binary digits, it makes at most d + 1 comparisons.
    ///
    /// ```
    /// # use cidr::*;
    /// # use cidr_table::Probe;
    /// # use cidr_sets::{access::*, alloc::*, *};
    /// let set: NetworkSet<Ipv4Cidr> = ["10.0.0.0/8".parse()?].into_iter().collect();
    /// assert!(set.contains(&"10.0.0.0/8".parse()?));
    /// assert!(!set.contains(&Ipv4Cidr::new_host(Ipv4Addr::new(11, 0, 0, 1))));
    /// # Ok::<(), Box<dyn std::error::Error>>(())
    /// ```
    #[inline]
    pub fn contains(&self, network: &C) -> bool {
        contains(&mut self.probe(), network)
    }

    /// The networks of the set as a probe, for [`contains`](crate::contains). It borrows the set, copies nothing, and has
    /// made no comparison.
    ///
    /// ```
    /// # use cidr::*;
    /// # use cidr_table::Probe;
    /// # use cidr_sets::{access::*, alloc::*, *};
    /// let set: NetworkSet<Ipv4Cidr> = ["10.0.0.0/8".parse()?].into_iter().collect();
    /// let mut networks = set.probe();
    /// assert!(contains(&mut networks, &"10.1.0.0/16".parse()?));
    /// # Ok::<(), Box<dyn std::error::Error>>(())
    /// ```
    #[inline]
    pub fn probe(&self) -> Networks<'_, C> {
        Networks::new(self.networks.as_slice())
    }

    /// The networks of the set, ascending.
    ///
    /// ```
    /// # use cidr::*;
    /// # use cidr_table::Probe;
    /// # use cidr_sets::{access::*, alloc::*, *};
    /// let set: NetworkSet<Ipv4Cidr> = ["10.0.0.0/8".parse()?].into_iter().collect();
    /// assert_eq!(format!("{:?}", set.as_slice()), "[10.0.0.0/8]");
    /// # Ok::<(), Box<dyn std::error::Error>>(())
    /// ```
    #[inline]
    pub fn as_slice(&self) -> &[C] {
        self.networks.as_slice()
    }

    /// The networks of the set, ascending, from both ends.
    ///
    /// ```
    /// # use cidr::*;
    /// # use cidr_table::Probe;
    /// # use cidr_sets::{access::*, alloc::*, *};
    /// let set: NetworkSet<Ipv4Cidr> = ["10.0.0.0/8".parse()?].into_iter().collect();
    /// assert_eq!(format!("{:?}", set.iter().next()), "Some(10.0.0.0/8)");
    /// # Ok::<(), Box<dyn std::error::Error>>(())
    /// ```
    #[inline]
    pub fn iter(&self) -> Iter<'_, C> {
        self.networks.iter()
    }

    /// The number of networks, which isn't that of the addresses.
    ///
    /// ```
    /// # use cidr::*;
    /// # use cidr_table::Probe;
    /// # use cidr_sets::{access::*, alloc::*, *};
    /// let set: NetworkSet<Ipv4Cidr> = ["10.0.0.0/8".parse()?].into_iter().collect();
    /// assert_eq!(set.len(), 1);
    /// # Ok::<(), Box<dyn std::error::Error>>(())
    /// ```
    #[inline]
    pub fn len(&self) -> usize {
        self.networks.len()
    }

    /// Whether the set has no address.
    ///
    /// ```
    /// # use cidr::*;
    /// # use cidr_table::Probe;
    /// # use cidr_sets::{access::*, alloc::*, *};
    /// assert!(NetworkSet::<Ipv4Cidr>::new(Global).is_empty());
    /// # Ok::<(), Box<dyn std::error::Error>>(())
    /// ```
    #[inline]
    pub fn is_empty(&self) -> bool {
        self.networks.is_empty()
    }
}

/// The set of the addresses of some networks.
#[inline]
pub(crate) fn reduced<C: NetworkBits + Copy>(mut networks: Vec<C>) -> NetworkSet<C> {
    networks.sort_unstable();
    networks.dedup();
    joined(networks)
}

/// The set of the addresses of networks that ascend.
#[inline]
pub(crate) fn joined<C: NetworkBits + Copy>(mut networks: Vec<C>) -> NetworkSet<C> {
    let count = least_cover_in_place(networks.as_mut_slice());
    networks.truncate(count);
    NetworkSet { networks }
}
