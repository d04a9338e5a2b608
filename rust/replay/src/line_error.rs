//! Why a line has no answer of its own.

use cidr_table::alloc::AllocError;
use std::fmt;

/// What a line gets that no call answers.
#[derive(Clone, Copy, Debug, PartialEq, Eq)]
pub enum LineError {
    /// The line is none of the format.
    Malformed,
    /// The operation is another program's.
    Unsupported,
    /// There is no memory for the line's values or for its answer.
    OutOfMemory,
    /// A value was not printed.
    Print,
}

/// What an operation gives when it has written its answer.
pub type Outcome = Result<(), LineError>;

impl fmt::Display for LineError {
    fn fmt(&self, f: &mut fmt::Formatter<'_>) -> fmt::Result {
        f.write_str(match self {
            LineError::Malformed => "malformed",
            LineError::Unsupported => "unsupported",
            LineError::OutOfMemory => "out of memory",
            LineError::Print => "not printed",
        })
    }
}

impl From<AllocError> for LineError {
    fn from(_: AllocError) -> LineError {
        LineError::OutOfMemory
    }
}

impl From<fmt::Error> for LineError {
    fn from(_: fmt::Error) -> LineError {
        LineError::Print
    }
}
