//! The networks of the search tree, in order.

use crate::database::Database;
use crate::found::Found;
use crate::parts::Parts;
use cidr::IpCidr;

/// A network of the search tree.
#[derive(Clone, Copy, Debug, PartialEq, Eq)]
pub struct Row {
    /// The network. In a tree of IPv6 those at or below ::/96 are of IPv4.
    pub network: IpCidr,
    /// What a look-up finds for each of its addresses.
    pub found: Found,
}

/// The next network behind one, or the first of all, for which anything is found: a value, or that the tree is broken there. `None` where
/// there is none. It looks at `most` networks with nothing at the most, and then returns the next whatever it has; where that is nothing,
/// a call behind it goes on.
///
/// So calls give each network of the tree once, in order of their addresses, those of aliases of IPv4 too. A tree whose nodes are shared
/// or go round in a circle has up to 2^128 of them.
///
/// It takes as many steps as addresses have bits, for each of `most + 1` networks at the most, and allocates nothing.
///
/// ```
/// # use cidr::Ipv4Cidr;
/// # use cidr_mmdb::*;
/// # use cidr_support::alloc::Global;
/// let mut bytes = b"\x00\x00\x11\x00\x00\x01".to_vec();
/// bytes.extend([0; 16]);
/// bytes.extend(b"\xe1\x47country\x42NL");
/// bytes.extend(b"\xab\xcd\xefMaxMind.com\xe3\x4anode_count\xc1\x01\x4brecord_size\xa1\x18\x4aip_version\xa1\x04");
/// let database = open(&bytes).unwrap();
/// assert_eq!(format!("{:?}", next_row(&database, None, 1000).map(|row| row.found)), "Some(Value(0))");
/// assert_eq!(format!("{:?}", next_row(&database, Some("0.0.0.0/1".parse()?), 1000)), "None");
/// # Ok::<(), Box<dyn std::error::Error>>(())
/// ```
#[inline]
pub fn next_row(database: &Database<'_>, after: Option<IpCidr>, most: u32) -> Option<Row> {
    database.search().next_row(after, most)
}

/// The same in the bytes of a file whose parts are kept as numbers. Whatever bytes and numbers are given, it reads nothing outside of the
/// bytes; with those of no file, what it finds says nothing.
///
/// ```
/// # use cidr::Ipv4Cidr;
/// # use cidr_mmdb::*;
/// # use cidr_support::alloc::Global;
/// let mut bytes = b"\x00\x00\x11\x00\x00\x01".to_vec();
/// bytes.extend([0; 16]);
/// bytes.extend(b"\xe1\x47country\x42NL");
/// bytes.extend(b"\xab\xcd\xefMaxMind.com\xe3\x4anode_count\xc1\x01\x4brecord_size\xa1\x18\x4aip_version\xa1\x04");
/// let parts = open(&bytes)?.parts();
/// assert_eq!(format!("{:?}", next_row_in(&bytes, &parts, None, 1000).map(|row| row.found)), "Some(Value(0))");
/// # Ok::<(), Box<dyn std::error::Error>>(())
/// ```
#[inline]
pub fn next_row_in(bytes: &[u8], parts: &Parts, after: Option<IpCidr>, most: u32) -> Option<Row> {
    parts.search(bytes)?.next_row(after, most)
}
