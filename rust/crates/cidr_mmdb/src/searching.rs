//! Look-ups in the search tree.

use crate::found::Found;
use crate::looking::Answer;
use crate::trees::{Tree, Walk};
use cidr::FamilyCidr;

/// What look-ups read of a file.
#[derive(Clone, Copy)]
pub(crate) struct Search<'a> {
    /// The search tree.
    pub tree: Tree<'a>,
    /// How many bits an address has in the tree.
    pub width: u32,
    /// How many bytes the data section has.
    pub size: usize,
    /// Where a walk by an IPv4 address begins.
    pub start: u32,
}

impl<'a> Search<'a> {
    /// What is found for an address, where walks by IPv4 addresses begin behind the bits before them.
    pub(crate) fn answer<C: FamilyCidr>(&self, address: C::Address) -> Answer<C> {
        let mut network = C::new_host(address);
        let width = u32::from(C::FAMILY.len());
        if width > self.width {
            network.clip(0);
            return Answer {
                network,
                found: Found::Nothing,
            };
        }
        let walk = self.walk(C::to_number(address), width);
        network.clip(width.saturating_sub(walk.left) as usize);
        Answer {
            network,
            found: self.found(walk.record),
        }
    }

    /// The walk by an address of so many bits; that by one of IPv4 begins behind the bits before it, so that no more bits are left than it
    /// has.
    #[inline]
    fn walk(&self, address: u128, width: u32) -> Walk {
        if width == 32 {
            return self.tree.walk(self.start, address, 32);
        }
        self.tree.walk(0, address, self.width)
    }

    /// What a record says.
    pub(crate) fn found(&self, at: u32) -> Found {
        if at < self.tree.node_count {
            return Found::Broken;
        }
        if at == self.tree.node_count {
            return Found::Nothing;
        }
        let past = (at - self.tree.node_count) as usize;
        if past < 16 {
            return Found::Broken;
        }
        if past - 16 >= self.size {
            return Found::Broken;
        }
        Found::Value(past - 16)
    }
}
