//! The numbers of the errors.

use cidr::errors::{CompactError, NetworkParseError};
use cidr_ext::MaskParseError;
use cidr_lists::errors::LineError;
use core::cmp::Ordering;

/// There is no error.
pub const OK: u32 = 0;
/// A string is not UTF-8.
pub const NOT_UTF8: u32 = 1;
/// A string of a network or a host has no address.
pub const ADDRESS: u32 = 2;
/// A string has no prefix length.
pub const LENGTH: u32 = 3;
/// The prefix length is above 32 or 128.
pub const LENGTH_TOO_LONG: u32 = 4;
/// A bit after the prefix is set.
pub const HOST_PART: u32 = 5;
/// Compact bytes end too early.
pub const TRUNCATED: u32 = 6;
/// The tag of compact bytes is none.
pub const TAG: u32 = 7;
/// Compact bytes are those of `any`.
pub const ANY: u32 = 8;
/// Compact bytes are of the other family; no call returns this yet.
pub const FAMILY: u32 = 9;
/// A value is none that the call takes.
pub const NO_VALUE: u32 = 10;
/// There is too little room for the answer.
pub const NO_ROOM: u32 = 11;
/// There is no memory.
pub const NO_MEMORY: u32 = 12;
/// A step leaves the network.
pub const WRAPPED: u32 = 13;
/// A string that is to be an address alone is none.
pub const NOT_ADDRESS: u32 = 14;
/// There are more than 2,147,483,647 networks, or more than 1,073,741,823 words of their look-up table.
pub const TOO_MANY: u32 = 15;
/// Arrays are not those of the networks.
pub const NO_TABLE: u32 = 17;
/// Bytes are no file of look-up tables.
pub const NO_FILE: u32 = 18;
/// A file is of another version.
pub const OTHER_VERSION: u32 = 19;
/// A file is shorter than its header says.
pub const SHORT: u32 = 20;
/// A file is longer than its header says.
pub const LONG: u32 = 21;
/// Values don't lie one behind the other, or have 2^32 bytes or more together.
pub const VALUES: u32 = 22;

/// There is none.
pub const NONE: u32 = 23;
/// A string with a mask has no slash.
pub const NO_SLASH: u32 = 24;
/// What is behind the slash is no address of the family.
pub const MASK: u32 = 25;
/// It is neither a network mask nor a host mask.
pub const SCATTERED: u32 = 26;
/// A line has more than 1 MiB.
pub const LINE_TOO_LONG: u32 = 27;
/// The ends of a range are of two families.
pub const TWO_FAMILIES: u32 = 28;
/// The first address of a range is above the last one.
pub const REVERSED: u32 = 29;
/// It stands there already.
pub const PRESENT: u32 = 30;
/// No marker of the metadata begins in the last 128 KiB of a MaxMind DB file.
pub const NO_MARKER: u32 = 31;
/// The metadata have no `node_count`.
pub const NO_NODE_COUNT: u32 = 32;
/// They have no `record_size` of 24, 28 or 32.
pub const NO_RECORD_SIZE: u32 = 33;
/// They have no `ip_version` of 4 or 6.
pub const NO_IP_VERSION: u32 = 34;
/// The search tree goes on behind the metadata.
pub const LONG_TREE: u32 = 35;
/// No value begins at a place of a MaxMind DB file.
pub const MALFORMED: u32 = 36;
/// A text is longer than the limit.
pub const LONG_TEXT: u32 = 37;

/// The number of an error of parsing.
#[inline]
pub fn parse_code(error: &NetworkParseError) -> u32 {
    match error {
        NetworkParseError::AddrParseError(_) => ADDRESS,
        NetworkParseError::NetworkLengthParseError(_) => LENGTH,
        NetworkParseError::NetworkLengthTooLongError(_) => LENGTH_TOO_LONG,
        NetworkParseError::InvalidHostPart => HOST_PART,
    }
}

/// The number of an error of compact bytes.
#[inline]
pub fn compact_code(error: &CompactError) -> u32 {
    match error {
        CompactError::Truncated => TRUNCATED,
        CompactError::InvalidTag => TAG,
        CompactError::InvalidAny => ANY,
        CompactError::InvalidFamily(_) => FAMILY,
        CompactError::InvalidHostPart => HOST_PART,
    }
}

/// The number of an error of parsing a network with a mask.
#[inline]
pub fn mask_code(error: &MaskParseError) -> u32 {
    match error {
        MaskParseError::NoSlash => NO_SLASH,
        MaskParseError::InvalidAddress => ADDRESS,
        MaskParseError::InvalidMask => MASK,
        MaskParseError::NonContiguousMask => SCATTERED,
        MaskParseError::InvalidHostPart => HOST_PART,
    }
}

/// The number of an error of a line of a list.
pub fn line_code(error: &LineError) -> u32 {
    match error {
        LineError::TooLong => LINE_TOO_LONG,
        LineError::NotUtf8(_) => NOT_UTF8,
        LineError::NoNetwork(_, e) => parse_code(e),
        LineError::NoAddress(_, _) => NOT_ADDRESS,
        // (a line of a list is one field, which is not missing, and neither a rule nor a row of a table)
        LineError::NoField
        | LineError::NoAction(_)
        | LineError::Quoted(_)
        | LineError::NoLength(_)
        | LineError::NoCount(_)
        | LineError::NoType(_)
        | LineError::OtherType(_)
        | LineError::RangeRow(_) => NOT_ADDRESS,
        LineError::TwoFamilies(_) => TWO_FAMILIES,
        LineError::Reversed(_) => REVERSED,
    }
}

/// A comparison as a number: 0 for less, 1 for equal and 2 for greater.
#[inline]
pub fn order_code(order: Ordering) -> u32 {
    match order {
        Ordering::Less => 0,
        Ordering::Equal => 1,
        Ordering::Greater => 2,
    }
}

/// The message of a number, and no text for one that is none.
pub fn message(code: u32) -> &'static str {
    match code {
        1 => "string is not UTF-8",
        2 => "couldn't parse address in network: invalid IP address syntax",
        3 => "couldn't parse length in network: invalid length text",
        4 => "invalid length for network: it is too long for the family",
        5 => "host part of address was not zero",
        6 => "compact bytes end too early",
        7 => "invalid tag",
        8 => "invalid value: `any`",
        9 => "invalid type: other family",
        10 => "value is not of the kind that the call takes",
        11 => "too little room for the answer",
        12 => "no memory",
        13 => "step leaves the network",
        14 => "invalid IP address syntax",
        15 => "too many networks",
        17 => "arrays are not those of the networks",
        18 => "not a file of look-up tables",
        19 => "file is of another version",
        20 => "file is shorter than its header says",
        21 => "file is longer than its header says",
        22 => "values don't lie one behind the other",
        23 => "there is none",
        24 => "no slash before a mask",
        25 => "invalid mask",
        26 => "mask is not contiguous",
        27 => "line is longer than 1 MiB",
        28 => "the ends of the range are of two families",
        29 => "the first address of the range is above the last one",
        30 => "the network stands there already",
        31 => "no marker of the metadata in the last 128 KiB",
        32 => "no node_count in the metadata",
        33 => "no record_size of 24, 28 or 32 in the metadata",
        34 => "no ip_version of 4 or 6 in the metadata",
        35 => "the search tree goes on behind the metadata",
        36 => "no value there",
        37 => "longer than the limit",
        _ => "",
    }
}
