//! The parts of a file as numbers.

use crate::records::{RecordSize, node_bytes};
use crate::searching::Search;
use crate::trees::Tree;

/// What [`open`](crate::open) found in the bytes of a file, as numbers that stand beside these bytes, for a caller that can't keep a
/// [`Database`](crate::Database). [`Database::parts`](crate::Database::parts) gives them.
#[derive(Clone, Copy, Debug, PartialEq, Eq)]
pub struct Parts {
    /// How many nodes the search tree has.
    pub node_count: u32,
    /// How large a record is.
    pub record_size: RecordSize,
    /// How many bits an address has in the tree: 32 or 128.
    pub width: u32,
    /// The record at which look-ups of IPv4 addresses begin.
    pub ipv4_start: u32,
    /// How many bytes the data section has.
    pub data_len: usize,
}

impl Parts {
    /// The data section of a file of these parts, and the metadata, if its bytes have them.
    ///
    /// ```
    /// # use cidr::Ipv4Cidr;
    /// # use cidr_mmdb::*;
    /// # use cidr_support::alloc::Global;
    /// let mut bytes = b"\x00\x00\x11\x00\x00\x01".to_vec();
    /// bytes.extend([0; 16]);
    /// bytes.extend(b"\xe1\x47country\x42NL");
    /// bytes.extend(b"\xab\xcd\xefMaxMind.com\xe3\x4anode_count\xc1\x01\x4brecord_size\xa1\x18\x4aip_version\xa1\x04");
    /// let mut bytes = b"\x00\x00\x11\x00\x00\x01".to_vec();
    /// bytes.extend([0; 16]);
    /// bytes.extend(b"\xe1\x47country\x42NL");
    /// bytes.extend(b"\xab\xcd\xefMaxMind.com\xe3\x4anode_count\xc1\x01\x4brecord_size\xa1\x18\x4aip_version\xa1\x04");
    /// let database = open(&bytes).unwrap();
    /// assert_eq!(format!("{:?}", database.parts().sections(&bytes).map(|both| both.0.len())), "Some(12)");
    /// # Ok::<(), Box<dyn std::error::Error>>(())
    /// ```
    #[inline]
    pub fn sections<'a>(&self, bytes: &'a [u8]) -> Option<(&'a [u8], &'a [u8])> {
        let begin = self.node_count as usize * node_bytes(self.record_size) + 16;
        let end = begin.saturating_add(self.data_len);
        if end.saturating_add(14) > bytes.len() {
            return None;
        }
        Some((&bytes[begin..end], &bytes[end + 14..]))
    }

    /// What look-ups read in the bytes of a file of these parts, if they have it.
    pub(crate) fn search<'a>(&self, bytes: &'a [u8]) -> Option<Search<'a>> {
        let size = self.node_count as usize * node_bytes(self.record_size);
        if size > bytes.len() {
            return None;
        }
        if self.width != 32 && self.width != 128 {
            return None;
        }
        let tree = Tree {
            bytes: &bytes[..size],
            node_count: self.node_count,
            record_size: self.record_size,
        };
        Some(Search {
            tree,
            width: self.width,
            size: self.data_len,
            start: self.ipv4_start,
        })
    }
}
