//! Union, intersection and difference.

use cidr_support::vec::Vec;
use crate::lookup::{covers, upto};
use crate::merging::{write_merged, write_shared};
use crate::rests::{write_complement, write_rests};
use crate::set::{NetworkSet, joined};
use cidr::names::NetworkBits;
use cidr_table::is_inside;
use cidr_support::alloc::{AllocError, Global};

impl<C: NetworkBits + Copy> NetworkSet<C> {
    /// The addresses that one of two sets has, or both. Both stay as they were.
    ///
    /// It goes through both once, O(n), 10 to 25 ns a network of IPv4, and allocates room for as many networks as both
    /// have together. The union of many sets is made at once by `from_networks`. Where an allocation fails, it returns
    /// the error.
    ///
    /// ```
    /// # use cidr::names::*;
    /// # use cidr_table::Probe;
    /// # use cidr_sets::{access::*, alloc::*, *};
    /// let half: NetworkSet<Ipv4Cidr> = ["10.128.0.0/9".parse()?].into_iter().collect();
    /// let other: NetworkSet<Ipv4Cidr> = ["192.0.2.0/24".parse()?].into_iter().collect();
    /// assert_eq!(format!("{:?}", half.union(&other)?.as_slice()), "[10.128.0.0/9, 192.0.2.0/24]");
    /// # Ok::<(), Box<dyn std::error::Error>>(())
    /// ```
    ///
    /// # Errors
    ///
    /// `AllocError` where memory runs out.
    #[inline]
    pub fn union(&self, other: &NetworkSet<C>) -> Result<NetworkSet<C>, AllocError> {
        let (these, those) = (self.as_slice(), other.as_slice());
        let mut networks = with_room(self.networks.allocator().clone(), these, those)?;
        write_merged(&mut networks, these, those);
        Ok(joined(networks))
    }

    /// The addresses that both of two sets have. Both stay as they were.
    ///
    /// It goes through both once, O(n), and allocates room for as many networks as both have together; the result has
    /// one less at most, if they have any. Where an allocation fails, it returns the error.
    ///
    /// ```
    /// # use cidr::names::*;
    /// # use cidr_table::Probe;
    /// # use cidr_sets::{access::*, alloc::*, *};
    /// let set: NetworkSet<Ipv4Cidr> = ["10.0.0.0/8".parse()?].into_iter().collect();
    /// let half: NetworkSet<Ipv4Cidr> = ["10.128.0.0/9".parse()?].into_iter().collect();
    /// assert_eq!(format!("{:?}", set.intersection(&half)?.as_slice()), "[10.128.0.0/9]");
    /// # Ok::<(), Box<dyn std::error::Error>>(())
    /// ```
    ///
    /// # Errors
    ///
    /// `AllocError` where memory runs out.
    #[inline]
    pub fn intersection(&self, other: &NetworkSet<C>) -> Result<NetworkSet<C>, AllocError> {
        let (these, those) = (self.as_slice(), other.as_slice());
        let mut networks = with_room(self.networks.allocator().clone(), these, those)?;
        write_shared(&mut networks, these, those);
        Ok(NetworkSet { networks })
    }

    /// The addresses of this set that the other has not. Both stay as they were.
    ///
    /// It goes through both once. The result has at most as many networks as this set, and for each network of the
    /// other as many more as the longest of these has bits; its memory grows as it is written. Where an allocation
    /// fails, it returns the error.
    ///
    /// ```
    /// # use cidr::names::*;
    /// # use cidr_table::Probe;
    /// # use cidr_sets::{access::*, alloc::*, *};
    /// let set: NetworkSet<Ipv4Cidr> = ["10.0.0.0/8".parse()?].into_iter().collect();
    /// let half: NetworkSet<Ipv4Cidr> = ["10.128.0.0/9".parse()?].into_iter().collect();
    /// assert_eq!(format!("{:?}", set.difference(&half)?.as_slice()), "[10.0.0.0/9]");
    /// # Ok::<(), Box<dyn std::error::Error>>(())
    /// ```
    ///
    /// # Errors
    ///
    /// `AllocError` where memory runs out.
    #[inline]
    pub fn difference(&self, other: &NetworkSet<C>) -> Result<NetworkSet<C>, AllocError> {
        let mut rest = Vec::new(self.networks.allocator().clone());
        write_rests(&mut rest, self.as_slice(), other.as_slice())?;
        Ok(NetworkSet { networks: rest })
    }

    /// Whether the set has all addresses of some networks, which may come in any order. Binary search for each, up to
    /// the first that isn't in the set: O(k log n) for k networks.
    ///
    /// ```
    /// # use cidr::names::*;
    /// # use cidr_table::Probe;
    /// # use cidr_sets::{access::*, alloc::*, *};
    /// let set: NetworkSet<Ipv4Cidr> = ["10.0.0.0/8".parse()?].into_iter().collect();
    /// assert!(set.contains_all(&["10.0.0.0/24".parse()?, "10.1.0.0/24".parse()?]));
    /// # Ok::<(), Box<dyn std::error::Error>>(())
    /// ```
    #[inline]
    pub fn contains_all(&self, networks: &[C]) -> bool {
        networks.iter().all(|network| self.contains(network))
    }

    /// Whether the set has an address of a network. Two binary searches at most: O(log n).
    ///
    /// ```
    /// # use cidr::names::*;
    /// # use cidr_table::Probe;
    /// # use cidr_sets::{access::*, alloc::*, *};
    /// let half: NetworkSet<Ipv4Cidr> = ["10.128.0.0/9".parse()?].into_iter().collect();
    /// assert!(half.overlaps(&"10.0.0.0/8".parse()?));
    /// assert!(!half.overlaps(&"10.0.0.0/9".parse()?));
    /// # Ok::<(), Box<dyn std::error::Error>>(())
    /// ```
    #[inline]
    pub fn overlaps(&self, network: &C) -> bool {
        meets(self.as_slice(), network)
    }

    /// Whether the other set has all addresses of this one. Binary search in the other for each network of this one, up
    /// to the first that isn't in it: O(m log n) for m and n networks.
    ///
    /// ```
    /// # use cidr::names::*;
    /// # use cidr_table::Probe;
    /// # use cidr_sets::{access::*, alloc::*, *};
    /// let set: NetworkSet<Ipv4Cidr> = ["10.0.0.0/8".parse()?].into_iter().collect();
    /// let half: NetworkSet<Ipv4Cidr> = ["10.128.0.0/9".parse()?].into_iter().collect();
    /// assert!(half.is_subset(&set));
    /// # Ok::<(), Box<dyn std::error::Error>>(())
    /// ```
    #[inline]
    pub fn is_subset(&self, other: &NetworkSet<C>) -> bool {
        other.contains_all(self.as_slice())
    }

    /// The addresses that exactly one of two sets has. Both stay as they were.
    ///
    /// It makes the difference each way and the union of both, in the time and memory of these. Where an allocation
    /// fails, it returns the error.
    ///
    /// ```
    /// # use cidr::names::*;
    /// # use cidr_table::Probe;
    /// # use cidr_sets::{access::*, alloc::*, *};
    /// let set: NetworkSet<Ipv4Cidr> = ["10.0.0.0/8".parse()?].into_iter().collect();
    /// let half: NetworkSet<Ipv4Cidr> = ["10.128.0.0/9".parse()?].into_iter().collect();
    /// assert_eq!(format!("{:?}", set.symmetric_difference(&half)?.as_slice()), "[10.0.0.0/9]");
    /// # Ok::<(), Box<dyn std::error::Error>>(())
    /// ```
    ///
    /// # Errors
    ///
    /// `AllocError` where memory runs out.
    #[inline]
    pub fn symmetric_difference(&self, other: &NetworkSet<C>) -> Result<NetworkSet<C>, AllocError> {
        let these = self.difference(other)?;
        let those = other.difference(self)?;
        these.union(&those)
    }

    /// The addresses of a network that the set has not. The set stays as it was.
    ///
    /// It goes through the set once: O(n). The result has at most one network, and for each network of the set as many
    /// more as the longest of these has bits; its memory grows as it is written. Where an allocation fails, it returns
    /// the error.
    ///
    /// ```
    /// # use cidr::names::*;
    /// # use cidr_table::Probe;
    /// # use cidr_sets::{access::*, alloc::*, *};
    /// let half: NetworkSet<Ipv4Cidr> = ["10.128.0.0/9".parse()?].into_iter().collect();
    /// assert_eq!(format!("{:?}", half.complement_in(&"10.0.0.0/8".parse()?)?.as_slice()), "[10.0.0.0/9]");
    /// # Ok::<(), Box<dyn std::error::Error>>(())
    /// ```
    ///
    /// # Errors
    ///
    /// `AllocError` where memory runs out.
    #[inline]
    pub fn complement_in(&self, network: &C) -> Result<NetworkSet<C>, AllocError> {
        let mut rest = Vec::new(self.networks.allocator().clone());
        write_complement(&mut rest, network, self.as_slice())?;
        Ok(NetworkSet { networks: rest })
    }

    /// Whether no address is in both sets. Binary searches in the other for each network of this one, up to the first
    /// that has an address in it: O(m log n) for m and n networks.
    ///
    /// ```
    /// # use cidr::names::*;
    /// # use cidr_table::Probe;
    /// # use cidr_sets::{access::*, alloc::*, *};
    /// let set: NetworkSet<Ipv4Cidr> = ["10.0.0.0/8".parse()?].into_iter().collect();
    /// let half: NetworkSet<Ipv4Cidr> = ["10.128.0.0/9".parse()?].into_iter().collect();
    /// assert!(!set.is_disjoint(&half));
    /// # Ok::<(), Box<dyn std::error::Error>>(())
    /// ```
    #[inline]
    pub fn is_disjoint(&self, other: &NetworkSet<C>) -> bool {
        !self
            .as_slice()
            .iter()
            .any(|network| other.overlaps(network))
    }
}

/// An empty list with room for the networks of two.
#[inline]
fn with_room<C>(alloc: Global, these: &[C], those: &[C]) -> Result<Vec<C>, AllocError> {
    let room = these.len().checked_add(those.len()).ok_or(AllocError)?;
    Vec::with_capacity(alloc, room)
}

/// The first of the networks that lie in one that none of them contains.
#[inline]
fn first_inside<C: NetworkBits + Copy>(networks: &[C], outer: &C) -> Option<C> {
    let index = upto(networks, outer);
    if index < networks.len() && is_inside(&networks[index], outer) {
        Some(networks[index])
    } else {
        None
    }
}

/// Whether one of the networks has an address in common with this one.
#[inline]
fn meets<C: NetworkBits + Copy>(networks: &[C], network: &C) -> bool {
    covers(networks, network) || first_inside(networks, network).is_some()
}
