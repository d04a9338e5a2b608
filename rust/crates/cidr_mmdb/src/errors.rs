//! Why bytes are no file, and why a value has no text.

use cidr_support::alloc::AllocError;
use core::error::Error;
use core::fmt;

/// Why bytes are no file: the first of these.
#[derive(Clone, Copy, Debug, PartialEq, Eq)]
pub enum OpenError {
    /// No marker of the metadata begins in the last 128 KiB: `no marker of the metadata in the last 128 KiB`.
    NoMarker,
    /// The metadata behind the last marker don't say what the search tree is.
    Metadata(MetadataError),
    /// The search tree and the 16 bytes behind it don't end before the marker: `the search tree goes on behind the metadata`.
    TreeTooLong,
}

impl fmt::Display for OpenError {
    #[inline]
    fn fmt(&self, f: &mut fmt::Formatter<'_>) -> fmt::Result {
        match self {
            OpenError::NoMarker => f.write_str("no marker of the metadata in the last 128 KiB"),
            OpenError::Metadata(e) => write!(f, "{e}"),
            OpenError::TreeTooLong => f.write_str("the search tree goes on behind the metadata"),
        }
    }
}

impl Error for OpenError {}

/// What the metadata don't say: the first of these.
#[derive(Clone, Copy, Debug, PartialEq, Eq)]
pub enum MetadataError {
    /// They have no `node_count`, an unsigned number of at most four bytes: `no node_count in the metadata`.
    NoNodeCount,
    /// `no record_size of 24, 28 or 32 in the metadata`.
    NoRecordSize,
    /// `no ip_version of 4 or 6 in the metadata`.
    NoIpVersion,
}

impl fmt::Display for MetadataError {
    #[inline]
    fn fmt(&self, f: &mut fmt::Formatter<'_>) -> fmt::Result {
        f.write_str(match self {
            MetadataError::NoNodeCount => "no node_count in the metadata",
            MetadataError::NoRecordSize => "no record_size of 24, 28 or 32 in the metadata",
            MetadataError::NoIpVersion => "no ip_version of 4 or 6 in the metadata",
        })
    }
}

impl Error for MetadataError {}

/// Why a value has no text.
#[derive(Clone, Copy, Debug, PartialEq, Eq)]
pub enum JsonError {
    /// No value begins there: a field goes past the end of the section, has no type or no such size; a pointer points to a pointer,
    /// the name of a pair is no string, or a string is not UTF-8; or it is nested deeper than 512 levels, where a pointer is one.
    /// `no value there`.
    Malformed,
    /// The text is longer than the limit: `longer than the limit`.
    TooLong,
    /// An allocation failed: `out of memory`.
    NoMemory,
}

impl fmt::Display for JsonError {
    #[inline]
    fn fmt(&self, f: &mut fmt::Formatter<'_>) -> fmt::Result {
        f.write_str(match self {
            JsonError::Malformed => "no value there",
            JsonError::TooLong => "longer than the limit",
            JsonError::NoMemory => "out of memory",
        })
    }
}

impl Error for JsonError {}

impl From<AllocError> for JsonError {
    #[inline]
    fn from(_error: AllocError) -> JsonError {
        JsonError::NoMemory
    }
}
