//! The look-up in a set, whose comparisons are counted.

use crate::search::index;
use cidr::{BitString, NetworkBits};
use cidr_table::{Count, Probe, is_inside};
use core::cmp::Ordering;

/// The one way to the networks of a set, for `contains`: the `Probe` of a table, which also tells whether a network
/// contains another. Both are comparisons, which are counted for the contracts and take no memory.
pub trait NetworkProbe<C: NetworkBits>: Sized + Probe<C> {
    /// Whether the network at index `i`, counted from 0, contains this one. The caller has to ensure that `i` is below
    /// the number of networks.
    ///
    /// ```
    /// # use cidr::*;
    /// # use cidr_table::Probe;
    /// # use cidr_sets::{access::*, alloc::*, *};
    /// let set: NetworkSet<Ipv4Cidr> = ["10.0.0.0/8".parse()?].into_iter().collect();
    /// let mut networks = set.probe();
    /// if 0 < networks.len() {
    ///     assert!(!networks.contains_at(0, &"11.0.0.0/8".parse()?));
    /// }
    /// # Ok::<(), Box<dyn std::error::Error>>(())
    /// ```
    ///
    /// # Panics
    ///
    /// Where an index is not below the length.
    fn contains_at(&mut self, i: usize, network: &C) -> bool;
}

/// The networks of a set as a [`NetworkProbe`](crate::NetworkProbe). The call `probe` of `NetworkSet` makes it. The count
/// of the comparisons is for the contracts and takes no memory.
pub struct Networks<'a, C> {
    networks: &'a [C],
    count: Count,
}

impl<'a, C> Networks<'a, C> {
    /// A probe that has made no comparison.
    #[inline]
    pub(crate) fn new(networks: &'a [C]) -> Self {
        Networks {
            networks,
            count: Count::zero(),
        }
    }
}

impl<'a, C: Ord> Probe<C> for Networks<'a, C> {
    #[inline]
    fn len(&self) -> usize {
        self.networks.len()
    }

    #[inline]
    fn compare(&mut self, i: usize, key: &C) -> Ordering {
        self.count.tick();
        self.networks[i].cmp(key)
    }
}

impl<'a, C: NetworkBits> NetworkProbe<C> for Networks<'a, C> {
    #[inline]
    fn contains_at(&mut self, i: usize, network: &C) -> bool {
        self.count.tick();
        is_inside(network, &self.networks[i])
    }
}

/// Whether one of the networks of a set contains this one, so that all its addresses are in the set. The caller has to
/// ensure that the networks are those of a set, as `probe` gives them: ascending, none in another, and no two the halves
/// of one.
///
/// One binary search and a look at one neighbour: of n networks, where n has d binary digits, it makes at most d + 1
/// comparisons, 18 of 100,000 networks.
///
/// ```
/// # use cidr::*;
/// # use cidr_table::Probe;
/// # use cidr_sets::{access::*, alloc::*, *};
/// let set: NetworkSet<Ipv4Cidr> = ["10.0.0.0/8".parse()?].into_iter().collect();
/// let mut networks = set.probe();
/// assert!(contains(&mut networks, &"10.1.0.0/16".parse()?));
/// # Ok::<(), Box<dyn std::error::Error>>(())
/// ```
#[inline]
pub fn contains<C: NetworkBits, P: NetworkProbe<C>>(networks: &mut P, network: &C) -> bool {
    let index = index(networks, network);
    index > 0 && networks.contains_at(index - 1, network)
}
