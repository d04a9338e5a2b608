//! MaxMind DB files.

use crate::codes::{
    LONG_TEXT, LONG_TREE, MALFORMED, NO_IP_VERSION, NO_MARKER, NO_MEMORY, NO_NODE_COUNT,
    NO_RECORD_SIZE, NO_VALUE, NONE, OK,
};
use crate::values::{CValue, address_of, put_ip_network, value_network};
use crate::writing::put_bytes;
use cidr::{AnyIpCidr, FamilyCidr, IpAddr, IpCidr, Ipv4Cidr, Ipv6Cidr};
use cidr_mmdb::{
    Answer, Found, JsonError, MetadataError, OpenError, Parts, RecordSize, lookup_in, next_row_in,
    open, text_at,
};
use cidr_support::alloc::Global;

/// How many networks with nothing a call for the next row passes at the most.
const MOST: u32 = 1000;

/// Where the parts of a MaxMind DB file are in its bytes.
#[repr(C)]
#[derive(Clone, Copy)]
pub struct CMmdb {
    /// How many bytes the data section has.
    pub data_len: usize,
    /// How many nodes the search tree has.
    pub node_count: u32,
    /// How many bits a record has: 24, 28 or 32.
    pub record_size: u32,
    /// How many bits an address has in the tree: 32 or 128.
    pub width: u32,
    /// The record at which look-ups of IPv4 addresses begin.
    pub ipv4_start: u32,
}

/// A network of a MaxMind DB file, and what is found for its addresses.
#[repr(C)]
#[derive(Clone, Copy)]
pub struct CMmdbRow {
    /// The network.
    pub network: CValue,
    /// Where the value begins in the data section; 0 where there is none.
    pub place: usize,
    /// 0 where there is nothing, 1 a value, and 2 where the tree is broken.
    pub found: u32,
    /// The last four bytes, which are zero in what is written.
    pub zero: u32,
}

/// Says where the parts of a MaxMind DB file are: 0, or the number of the first reason why the bytes are none, and then `file` is as it
/// was. It takes no memory, and at most some 128 KiB of steps.
#[inline]
pub fn pcidr_mmdb_open(bytes: &[u8], file: &mut CMmdb) -> u32 {
    match open(bytes) {
        Ok(database) => {
            *file = file_of(&database.parts());
            OK
        }
        Err(e) => open_code(e),
    }
}

/// What a file has for an address: 0, and in `row` the network that the tree has the address in and what is found for it; or the number
/// of a value that is no address, and then `row` is as it was. It reads nothing outside of the bytes, whatever they and `file` hold,
/// takes at most 128 steps, and allocates nothing.
pub fn pcidr_mmdb_lookup(
    bytes: &[u8],
    file: &CMmdb,
    address: &CValue,
    row: &mut CMmdbRow,
) -> u32 {
    let Some(asked) = address_of(address) else {
        return NO_VALUE;
    };
    let parts = parts_of(file);
    match asked {
        IpAddr::V4(address) => put_answer(&lookup_in::<Ipv4Cidr>(bytes, &parts, address), row),
        IpAddr::V6(address) => put_answer(&lookup_in::<Ipv6Cidr>(bytes, &parts, address), row),
    }
    OK
}

/// The next network behind that of `row`, or for `any` the first, for which anything is found: 0, and `row` becomes it. Where 1,000
/// networks have nothing, `row` becomes the one behind them, whatever it has, and a call goes on from there. Or the number of none, or
/// that of a value that is no network, and then `row` is as it was.
pub fn pcidr_mmdb_next(bytes: &[u8], file: &CMmdb, row: &mut CMmdbRow) -> u32 {
    let Some(network) = value_network(&row.network) else {
        return NO_VALUE;
    };
    match next_row_in(bytes, &parts_of(file), one_family(network), MOST) {
        Some(next) => {
            put_row(&next.network, next.found, row);
            OK
        }
        None => NONE,
    }
}

/// The value at a place of the data section as JSON, of at most `limit` bytes: 0, and `count` becomes how many bytes stand in the front of
/// `out`. Or the number of too little room, and `count` becomes how much is enough; or of why there is no text: no value is there, it
/// is longer than the limit, or there is no memory. An error leaves `out` as it was.
#[inline]
pub fn pcidr_mmdb_json(
    alloc: Global,
    bytes: &[u8],
    file: &CMmdb,
    place: usize,
    limit: usize,
    out: &mut [u8],
    count: &mut usize,
) -> u32 {
    match parts_of(file).sections(bytes) {
        Some((data, _)) => put_text(alloc, data, place, limit, out, count),
        None => MALFORMED,
    }
}

/// The same of the metadata.
#[inline]
pub fn pcidr_mmdb_metadata(
    alloc: Global,
    bytes: &[u8],
    file: &CMmdb,
    limit: usize,
    out: &mut [u8],
    count: &mut usize,
) -> u32 {
    match parts_of(file).sections(bytes) {
        Some((_, metadata)) => put_text(alloc, metadata, 0, limit, out, count),
        None => MALFORMED,
    }
}

/// Parts as C has them.
fn file_of(parts: &Parts) -> CMmdb {
    CMmdb {
        data_len: parts.data_len,
        node_count: parts.node_count,
        record_size: match parts.record_size {
            RecordSize::Bits24 => 24,
            RecordSize::Bits28 => 28,
            RecordSize::Bits32 => 32,
        },
        width: parts.width,
        ipv4_start: parts.ipv4_start,
    }
}

/// The parts that C has, where any other size of a record is read as 32.
fn parts_of(file: &CMmdb) -> Parts {
    Parts {
        node_count: file.node_count,
        record_size: match file.record_size {
            24 => RecordSize::Bits24,
            28 => RecordSize::Bits28,
            _ => RecordSize::Bits32,
        },
        width: file.width,
        ipv4_start: file.ipv4_start,
        data_len: file.data_len,
    }
}

/// The number of why bytes are no file.
#[inline]
fn open_code(error: OpenError) -> u32 {
    match error {
        OpenError::NoMarker => NO_MARKER,
        OpenError::Metadata(MetadataError::NoNodeCount) => NO_NODE_COUNT,
        OpenError::Metadata(MetadataError::NoRecordSize) => NO_RECORD_SIZE,
        OpenError::Metadata(MetadataError::NoIpVersion) => NO_IP_VERSION,
        OpenError::TreeTooLong => LONG_TREE,
    }
}

/// The number of why a value has no text.
#[inline]
fn json_code(error: JsonError) -> u32 {
    match error {
        JsonError::Malformed => MALFORMED,
        JsonError::TooLong => LONG_TEXT,
        JsonError::NoMemory => NO_MEMORY,
    }
}

/// The network of one family, or none for `any`.
#[inline]
fn one_family(network: AnyIpCidr) -> Option<IpCidr> {
    match network {
        AnyIpCidr::Any => None,
        AnyIpCidr::V4(network) => Some(IpCidr::V4(network)),
        AnyIpCidr::V6(network) => Some(IpCidr::V6(network)),
    }
}

/// Writes what a look-up gave.
#[inline]
fn put_answer<C: FamilyCidr>(answer: &Answer<C>, row: &mut CMmdbRow) {
    put_row(&answer.network.to_ip(), answer.found, row);
}

/// Writes a row.
fn put_row(network: &IpCidr, found: Found, row: &mut CMmdbRow) {
    put_ip_network(network, &mut row.network);
    row.zero = 0;
    match found {
        Found::Nothing => {
            row.place = 0;
            row.found = 0;
        }
        Found::Value(place) => {
            row.place = place;
            row.found = 1;
        }
        Found::Broken => {
            row.place = 0;
            row.found = 2;
        }
    }
}

/// Writes the text of a value into the front of a room that has enough.
#[inline]
fn put_text(
    alloc: Global,
    section: &[u8],
    place: usize,
    limit: usize,
    out: &mut [u8],
    count: &mut usize,
) -> u32 {
    match text_at(alloc, section, place, limit) {
        Ok(text) => put_bytes(text.as_slice(), out, count),
        Err(e) => json_code(e),
    }
}
