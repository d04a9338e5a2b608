//! The kinds of the refusals.

use cidr::errors::{
    CompactError, InetTupleError, NetworkLengthTooLongError, NetworkParseError, PrefixBytesError,
};
use cidr::AddrParseError;
use std::fmt::Display;

/// A refusal: its words are what it displays.
pub trait Refusal: Display {
    /// The name of its kind.
    fn kind(&self) -> &'static str;
}

impl Refusal for AddrParseError {
    fn kind(&self) -> &'static str {
        "AddrParseError"
    }
}

impl Refusal for NetworkParseError {
    fn kind(&self) -> &'static str {
        match self {
            NetworkParseError::InvalidHostPart => "InvalidHostPart",
            NetworkParseError::AddrParseError(_) => "AddrParseError",
            NetworkParseError::NetworkLengthParseError(_) => "NetworkLengthParseError",
            NetworkParseError::NetworkLengthTooLongError(_) => "NetworkLengthTooLongError",
        }
    }
}

impl Refusal for NetworkLengthTooLongError {
    fn kind(&self) -> &'static str {
        "NetworkLengthTooLongError"
    }
}

impl Refusal for InetTupleError {
    fn kind(&self) -> &'static str {
        match self {
            InetTupleError::NotInSharedNetwork => "NotInSharedNetwork",
            InetTupleError::NetworkLengthTooLongError(_) => "NetworkLengthTooLongError",
        }
    }
}

impl Refusal for CompactError {
    fn kind(&self) -> &'static str {
        match self {
            CompactError::Truncated => "Truncated",
            CompactError::InvalidTag => "InvalidTag",
            CompactError::InvalidAny => "InvalidAny",
            CompactError::InvalidFamily(_) => "InvalidFamily",
            CompactError::InvalidHostPart => "InvalidHostPart",
        }
    }
}

impl Refusal for PrefixBytesError {
    fn kind(&self) -> &'static str {
        match self {
            PrefixBytesError::LengthTooLong => "LengthTooLong",
            PrefixBytesError::Truncated => "Truncated",
        }
    }
}
