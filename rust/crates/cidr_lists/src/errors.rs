//! Why a line is in error, and why a list is not read.

use crate::wrong::{Wrong, wrong_with};
use cidr_support::arrayvec::ArrayString;
use cidr::AddrParseError;
use cidr::errors::NetworkParseError;
use cidr_io::shown::excerpt;
use cidr_support::alloc::AllocError;

/// The most bytes that a message has: an excerpt, `: ` and what is wrong with it.
pub const MOST_MESSAGE: usize = 143;

/// A string that is in error.
#[derive(Clone, Copy, Debug)]
pub struct BadText {
    /// Its beginning, as it is shown in a message: at most 40 bytes, and two dots where it goes on.
    pub text: ArrayString<42>,
    /// What is wrong with it, if that can be told.
    pub wrong: Option<Wrong>,
}

impl BadText {
    /// A string that is in error. What is wrong with it is found here, so that a string without error costs nothing.
    #[inline]
    pub fn new(text: &str) -> BadText {
        BadText {
            text: excerpt(text),
            wrong: wrong_with(text),
        }
    }
}

/// A string with room for any words of an error.
#[inline]
fn widened(text: &str) -> ArrayString<99> {
    let mut words = ArrayString::new();
    words.push_str(text);
    words
}

/// The words of what is wrong with a string, or else these.
#[inline]
pub fn wrong_words(wrong: &Option<Wrong>, words: ArrayString<99>) -> ArrayString<99> {
    match wrong {
        Some(found) => found.to_text(),
        None => words,
    }
}

/// The same of a string that is to be an address.
#[inline]
fn address_words(wrong: &Option<Wrong>, words: ArrayString<99>) -> ArrayString<99> {
    match wrong {
        Some(found) if found.is_of_length() => words,
        Some(found) => found.to_text(),
        None => words,
    }
}

/// What is told of bytes that are not UTF-8, by how they are shown.
#[inline]
fn not_text_words(shown: &[u8]) -> &'static str {
    if shown.starts_with(b"\\x89CID") {
        "not UTF-8, as a file of look-ups"
    } else {
        "not UTF-8"
    }
}

/// A string as it is shown, and what is wrong with it.
#[inline]
pub(crate) fn message_of(shown: &ArrayString<42>, words: &str) -> ArrayString<MOST_MESSAGE> {
    let mut text = ArrayString::new();
    text.push_str(shown.as_str());
    text.push_str(": ");
    text.push_str(words);
    text
}

/// Why a line is in error, with the string that is wrong.
#[derive(Debug)]
pub enum LineError {
    /// It has more than 1 MiB. Whoever cuts the lines tells it: `texts`, or a caller that reads a stream.
    TooLong,
    /// The field that is read of it is missing or empty.
    NoField,
    /// Its field is not UTF-8: its beginning, as it is shown.
    NotUtf8(ArrayString<42>),
    /// Its field is no network and no address, or for an entry no host: the error of parsing it.
    NoNetwork(BadText, NetworkParseError),
    /// Its first field, or an end of its range, is no address: the error of parsing it.
    NoAddress(BadText, AddrParseError),
    /// The first field of a row begins with a quote: the field, as it is shown.
    Quoted(ArrayString<42>),
    /// The field of a prefix length is longer than any: the field, as it is shown.
    NoLength(ArrayString<42>),
    /// The value of a record is no number of addresses, or there are fewer from its first one on: the value, as it is shown.
    NoCount(ArrayString<42>),
    /// The type of a record is none: the type, as it is shown.
    NoType(ArrayString<42>),
    /// The first address of a record is not of its type: the address, as it is shown.
    OtherType(ArrayString<42>),
    /// A row has an address, a later one of its family and more: the first address, as it is shown.
    RangeRow(ArrayString<42>),
    /// Its first word is neither `permit` nor `deny`: the word, as it is shown.
    NoAction(ArrayString<42>),
    /// The ends of its range are of two families: the range, as it is shown.
    TwoFamilies(ArrayString<42>),
    /// The first address of its range is above the last one: the range, as it is shown.
    Reversed(ArrayString<42>),
}

impl LineError {
    /// The message, as `192.0.2.7/24: host bits set; the network is 192.0.2.0/24`, without a full stop: at most
    /// [`MOST_MESSAGE`] bytes.
    pub fn message(&self) -> ArrayString<MOST_MESSAGE> {
        match self {
            LineError::TooLong => {
                let mut text = ArrayString::new();
                text.push_str("longer than 1 MiB");
                text
            }
            LineError::NoField => {
                let mut text = ArrayString::new();
                text.push_str("the field is missing or empty");
                text
            }
            LineError::NotUtf8(shown) => message_of(shown, not_text_words(shown.as_bytes())),
            LineError::NoNetwork(bad, e) => {
                message_of(&bad.text, wrong_words(&bad.wrong, e.to_text()).as_str())
            }
            LineError::NoAddress(bad, e) => {
                let words = widened(e.to_text().as_str());
                message_of(&bad.text, address_words(&bad.wrong, words).as_str())
            }
            LineError::Quoted(shown) => message_of(shown, "quoted fields are not read"),
            LineError::NoLength(shown) => message_of(shown, "no prefix length"),
            LineError::NoCount(shown) => {
                message_of(shown, "no number of addresses from the first one on")
            }
            LineError::NoType(shown) => message_of(shown, "neither ipv4, ipv6 nor asn"),
            LineError::OtherType(shown) => { message_of(shown, "not of the type of the record") }
            LineError::RangeRow(shown) => {
                message_of(
                    shown,
                    "the first address of a range, whose last one is the next field",
                )
            }
            LineError::NoAction(shown) => message_of(shown, "neither permit nor deny"),
            LineError::TwoFamilies(shown) => {
                message_of(shown, "the ends of the range are of two families")
            }
            LineError::Reversed(shown) => message_of(
                shown,
                "the first address of the range is above the last one",
            ),
        }
    }
}

/// Why a list is not read.
#[derive(Debug)]
pub enum ListError {
    /// Its first line in error, by its number from 1 on.
    Line(u64, LineError),
    /// There is no memory for its networks.
    NoMemory,
}

impl From<AllocError> for ListError {
    #[inline]
    fn from(_error: AllocError) -> ListError {
        ListError::NoMemory
    }
}
