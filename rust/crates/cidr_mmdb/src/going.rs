//! Going from one network of the search tree to the next.

use crate::found::Found;
use crate::networks::{last_number, network_of};
use crate::rows::Row;
use crate::searching::Search;
use crate::trees::Walk;
use cidr::{FamilyCidr, IpCidr, Ipv4Cidr, Ipv6Cidr};

impl<'a> Search<'a> {
    /// The next network behind one for which anything is found, behind at most so many with nothing.
    pub(crate) fn next_row(&self, after: Option<IpCidr>, most: u32) -> Option<Row> {
        let mut from = self.behind(after)?;
        let mut left = most;
        while left > 0 {
            let walk = self.tree.walk(0, from, self.width);
            match self.found(walk.record) {
                Found::Nothing => {}
                _ => {
                    return Some(self.row(from, walk));
                }
            }
            let Some(next) = self.number_behind(from, walk.left) else {
                return None;
            };
            from = next;
            left -= 1;
        }
        let walk = self.tree.walk(0, from, self.width);
        Some(self.row(from, walk))
    }

    /// The number of the first address behind a network, or of the first of all, if it is in the tree.
    #[inline]
    fn behind(&self, after: Option<IpCidr>) -> Option<u128> {
        match after {
            None => Some(0),
            Some(network) => self.within(last_number(&network).checked_add(1)?),
        }
    }

    /// The number of the first address behind a network by its last so many bits, if it is in the tree.
    #[inline]
    fn number_behind(&self, n: u128, left: u32) -> Option<u128> {
        if left == 128 {
            return None;
        }
        let step: u128 = 1 << left;
        self.within((n / step * step).checked_add(step)?)
    }

    /// A number, if an address of the tree has it.
    #[inline]
    fn within(&self, n: u128) -> Option<u128> {
        if self.width == 32 && n >= 1 << 32 {
            return None;
        }
        Some(n)
    }

    /// The network of an address of the tree, by its walk.
    fn row(&self, n: u128, end: Walk) -> Row {
        let network = if self.width == 32 || (n < 1 << 32 && end.left <= 32) {
            network_of::<Ipv4Cidr>(n, end.left)
        } else {
            network_of::<Ipv6Cidr>(n, end.left)
        };
        Row {
            network,
            found: self.found(end.record),
        }
    }
}
