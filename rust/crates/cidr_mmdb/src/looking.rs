//! Looking an address up.

use crate::database::Database;
use crate::found::Found;
use crate::parts::Parts;
use cidr::FamilyCidr;

/// What a file has for an address.
#[derive(Debug, Clone, Copy)]
pub struct Answer<C: FamilyCidr> {
    /// The network that the search tree has the address in: what is found holds for all its addresses.
    pub network: C,
    /// What is found.
    pub found: Found,
}

/// What a file has for an address. An IPv4 address in a tree of IPv6 is one below ::/96 (IPv4 addresses in an IPv6 tree); where the walk
/// ends before all of these 96 bits are read, the network is 0.0.0.0/0. In a tree of IPv4 there is nothing for an IPv6 address, of
/// ::/0.
///
/// It takes a step for each bit of the address that it reads, at most 32 of IPv4 and 128 of IPv6, and allocates nothing.
///
/// ```
/// # use cidr::Ipv4Cidr;
/// # use cidr_mmdb::*;
/// # use cidr_support::alloc::Global;
/// let mut bytes = b"\x00\x00\x11\x00\x00\x01".to_vec();
/// bytes.extend([0; 16]);
/// bytes.extend(b"\xe1\x47country\x42NL");
/// bytes.extend(b"\xab\xcd\xefMaxMind.com\xe3\x4anode_count\xc1\x01\x4brecord_size\xa1\x18\x4aip_version\xa1\x04");
/// let database = open(&bytes).unwrap();
/// let answer = lookup::<Ipv4Cidr>(&database, "10.1.2.3".parse()?);
/// assert_eq!(format!("{}", answer.network), "0.0.0.0/1");
/// assert_eq!(format!("{:?}", answer.found), "Value(0)");
/// # Ok::<(), Box<dyn std::error::Error>>(())
/// ```
#[inline]
pub fn lookup<C: FamilyCidr>(database: &Database<'_>, address: C::Address) -> Answer<C> {
    database.search().answer::<C>(address)
}

/// The same in the bytes of a file whose parts are kept as numbers. Whatever bytes and numbers are given, it reads nothing outside of the
/// bytes; with those of no file, what it finds says nothing.
///
/// ```
/// # use cidr::Ipv4Cidr;
/// # use cidr_mmdb::*;
/// # use cidr_support::alloc::Global;
/// let mut bytes = b"\x00\x00\x11\x00\x00\x01".to_vec();
/// bytes.extend([0; 16]);
/// bytes.extend(b"\xe1\x47country\x42NL");
/// bytes.extend(b"\xab\xcd\xefMaxMind.com\xe3\x4anode_count\xc1\x01\x4brecord_size\xa1\x18\x4aip_version\xa1\x04");
/// let parts = open(&bytes)?.parts();
/// assert_eq!(format!("{:?}", lookup_in::<Ipv4Cidr>(&bytes, &parts, "10.1.2.3".parse()?).found), "Value(0)");
/// # Ok::<(), Box<dyn std::error::Error>>(())
/// ```
pub fn lookup_in<C: FamilyCidr>(bytes: &[u8], parts: &Parts, address: C::Address) -> Answer<C> {
    let Some(search) = parts.search(bytes) else {
        let mut network = C::new_host(address);
        network.clip(0);
        return Answer {
            network,
            found: Found::Nothing,
        };
    };
    search.answer::<C>(address)
}
