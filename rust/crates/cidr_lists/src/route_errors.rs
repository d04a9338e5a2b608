//! Why a line about routes is in error, and why a text of such lines is not read.

use crate::errors::{LineError, MOST_MESSAGE, message_of};
use cidr_support::arrayvec::ArrayString;
use cidr_support::alloc::AllocError;

/// Why a line about routes is in error, with the string that is wrong.
#[derive(Debug)]
pub enum RouteError {
    /// It is too long, a field is missing, or its network is wrong.
    Line(LineError),
    /// The first line of a file of payloads is not its header: its first field, as it is shown.
    NoHeader(ArrayString<42>),
    /// The field of an AS is no number below 2^32: the field, as it is shown.
    NoAs(ArrayString<42>),
    /// A greatest prefix length is none from that of the network to the full one: the field, as it is shown.
    NoMaxLength(ArrayString<42>),
    /// A word of a row of a prefix list is another one: the word, as it is shown.
    NoWord(ArrayString<42>),
    /// Behind `seq`, `ge` or `le` stands no number below 2^32: what stands there, as it is shown.
    NoNumber(ArrayString<42>),
    /// The lengths behind `ge` and `le` are not in order: the two with their words, as they are shown.
    NoLengths(ArrayString<42>),
    /// The network of a row is of the other family: the network, as it is shown.
    OtherFamily(ArrayString<42>),
}

impl RouteError {
    /// The message, as `AS4294967296: no number of an AS`, without a full stop: at most [`MOST_MESSAGE`] bytes.
    pub fn message(&self) -> ArrayString<MOST_MESSAGE> {
        match self {
            RouteError::Line(e) => e.message(),
            RouteError::NoHeader(shown) => {
                message_of(shown, "not the header of a file of payloads")
            }
            RouteError::NoAs(shown) => message_of(shown, "no number of an AS"),
            RouteError::NoMaxLength(shown) => {
                message_of(shown, "no length from that of the network to the full one")
            }
            RouteError::NoWord(shown) => message_of(shown, "not expected here"),
            RouteError::NoNumber(shown) => message_of(shown, "no number below 2^32"),
            RouteError::NoLengths(shown) => {
                message_of(
                    shown,
                    "not in order from the length of the network to the full one",
                )
            }
            RouteError::OtherFamily(shown) => message_of(shown, "not of the family of the row"),
        }
    }
}

/// Why a text of such lines is not read.
#[derive(Debug)]
pub enum RouteListError {
    /// Its first line in error, by its number from 1 on.
    Line(u64, RouteError),
    /// There is no memory for what it says.
    NoMemory,
}

impl From<AllocError> for RouteListError {
    #[inline]
    fn from(_error: AllocError) -> RouteListError {
        RouteListError::NoMemory
    }
}
