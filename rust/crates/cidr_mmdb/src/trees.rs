//! The search tree, and the walk by the bits of an address.

use crate::numbers::{four, three};
use crate::records::RecordSize;

/// A search tree: nodes of two records each.
#[derive(Clone, Copy)]
pub struct Tree<'a> {
    /// The bytes of the nodes, one behind the other; the first node is the root.
    pub bytes: &'a [u8],
    /// How many nodes there are.
    pub node_count: u32,
    /// How large a record is.
    pub record_size: RecordSize,
}

/// Where a walk ends.
#[derive(Clone, Copy, Debug, PartialEq, Eq)]
pub(crate) struct Walk {
    /// The record that it ends at.
    pub record: u32,
    /// How many bits of the address it has not read: the lowest.
    pub left: u32,
}

impl<'a> Tree<'a> {
    /// Walks from a record by the lowest `width` bits of an address, the most significant first: in at most that many steps.
    pub(crate) fn walk(&self, from: u32, address: u128, width: u32) -> Walk {
        let mut record = from;
        let mut left = width;
        while left > 0 {
            if record >= self.node_count {
                break;
            }
            left -= 1;
            let right = (address >> left) % 2 == 1;
            record = self.record(record, right);
        }
        Walk { record, left }
    }

    /// The left or the right record of a node.
    fn record(&self, node: u32, right: bool) -> u32 {
        let node = node as usize;
        match self.record_size {
            RecordSize::Bits24 => {
                if right {
                    three(self.bytes, 6 * node + 3)
                } else {
                    three(self.bytes, 6 * node)
                }
            }
            RecordSize::Bits28 => {
                let middle = u32::from(self.bytes[7 * node + 3]);
                if right {
                    middle % 16 * 0x100_0000 + three(self.bytes, 7 * node + 4)
                } else {
                    middle / 16 * 0x100_0000 + three(self.bytes, 7 * node)
                }
            }
            RecordSize::Bits32 => {
                if right {
                    four(self.bytes, 8 * node + 4)
                } else {
                    four(self.bytes, 8 * node)
                }
            }
        }
    }
}
