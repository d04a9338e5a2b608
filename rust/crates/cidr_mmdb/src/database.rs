//! A file that is open.

use cidr_support::vec::Vec;
use crate::errors::JsonError;
use crate::json::text_at;
use crate::parts::Parts;
use crate::searching::Search;
use crate::trees::Tree;
use cidr_support::alloc::Global;

/// The parts of a file. [`open`](crate::open) finds them in its bytes.
#[derive(Clone, Copy)]
pub struct Database<'a> {
    /// The search tree.
    pub tree: Tree<'a>,
    /// How many bits an address has in the tree: 32 where `ip_version` is 4, and 128 where it is 6.
    pub width: u32,
    /// The data section.
    pub data: &'a [u8],
    /// The metadata: a map, as the first field of these bytes.
    pub metadata: &'a [u8],
    /// The record behind the first 96 bits of ::/96 in a tree of IPv6, and else the root: where a walk by an IPv4 address begins.
    pub(crate) ipv4_start: u32,
}

impl<'a> Database<'a> {
    /// The value at a place of the data section as JSON, as [`lookup`](crate::lookup) found it, of at most `limit` bytes.
    ///
    /// It takes O(n) for n bytes of text, and memory for these and for one string more.
    ///
    /// ```
    /// # use cidr::Ipv4Cidr;
    /// # use cidr_mmdb::*;
    /// # use cidr_support::alloc::Global;
    /// let mut bytes = b"\x00\x00\x11\x00\x00\x01".to_vec();
    /// bytes.extend([0; 16]);
    /// bytes.extend(b"\xe1\x47country\x42NL");
    /// bytes.extend(b"\xab\xcd\xefMaxMind.com\xe3\x4anode_count\xc1\x01\x4brecord_size\xa1\x18\x4aip_version\xa1\x04");
    /// let database = open(&bytes).unwrap();
    /// let text = database.json(Global, 0, 1000)?; // {"country":"NL"}
    /// assert_eq!(text.len(), 16);
    /// # Ok::<(), Box<dyn std::error::Error>>(())
    /// ```
    ///
    /// # Errors
    ///
    /// `JsonError`, which tells what is wrong.
    #[inline]
    pub fn json(&self, alloc: Global, place: usize, limit: usize) -> Result<Vec<u8>, JsonError> {
        text_at(alloc, self.data, place, limit)
    }

    /// The metadata as JSON, of at most `limit` bytes.
    ///
    /// ```
    /// # use cidr::Ipv4Cidr;
    /// # use cidr_mmdb::*;
    /// # use cidr_support::alloc::Global;
    /// let mut bytes = b"\x00\x00\x11\x00\x00\x01".to_vec();
    /// bytes.extend([0; 16]);
    /// bytes.extend(b"\xe1\x47country\x42NL");
    /// bytes.extend(b"\xab\xcd\xefMaxMind.com\xe3\x4anode_count\xc1\x01\x4brecord_size\xa1\x18\x4aip_version\xa1\x04");
    /// let database = open(&bytes).unwrap();
    /// assert_eq!(database.metadata_json(Global, 1000)?.len(), 48);
    /// # Ok::<(), Box<dyn std::error::Error>>(())
    /// ```
    ///
    /// # Errors
    ///
    /// `JsonError`, which tells what is wrong.
    #[inline]
    pub fn metadata_json(&self, alloc: Global, limit: usize) -> Result<Vec<u8>, JsonError> {
        text_at(alloc, self.metadata, 0, limit)
    }

    /// What [`open`](crate::open) found, as numbers.
    ///
    /// ```
    /// # use cidr::Ipv4Cidr;
    /// # use cidr_mmdb::*;
    /// # use cidr_support::alloc::Global;
    /// let mut bytes = b"\x00\x00\x11\x00\x00\x01".to_vec();
    /// bytes.extend([0; 16]);
    /// bytes.extend(b"\xe1\x47country\x42NL");
    /// bytes.extend(b"\xab\xcd\xefMaxMind.com\xe3\x4anode_count\xc1\x01\x4brecord_size\xa1\x18\x4aip_version\xa1\x04");
    /// let database = open(&bytes).unwrap();
    /// assert_eq!(database.parts().node_count, 1);
    /// # Ok::<(), Box<dyn std::error::Error>>(())
    /// ```
    #[inline]
    pub fn parts(&self) -> Parts {
        Parts {
            node_count: self.tree.node_count,
            record_size: self.tree.record_size,
            width: self.width,
            ipv4_start: self.ipv4_start,
            data_len: self.data.len(),
        }
    }

    /// What look-ups read.
    #[inline]
    pub(crate) fn search(&self) -> Search<'a> {
        Search {
            tree: self.tree,
            width: self.width,
            size: self.data.len(),
            start: self.ipv4_start,
        }
    }
}
