//! Why a question about rules has no answer.
use cidr_support::alloc::{AllocError, AllocFailed};
use core::error::Error;
use core::fmt;

/// Why a question about rules has no answer.
#[derive(Debug, Clone, Copy, PartialEq, Eq)]
pub enum RulesError {
    /// As many parts as the limit allows were looked at, and more are left: `too many parts`.
    TooManyParts,
    /// An allocation failed: `out of memory`.
    NoMemory,
}

impl fmt::Display for RulesError {
    #[inline]
    fn fmt(&self, f: &mut fmt::Formatter<'_>) -> fmt::Result {
        match self {
            RulesError::TooManyParts => f.write_str("too many parts"),
            RulesError::NoMemory => f.write_str("out of memory"),
        }
    }
}

impl Error for RulesError {}

impl From<AllocError> for RulesError {
    #[inline]
    fn from(_e: AllocError) -> RulesError {
        RulesError::NoMemory
    }
}

impl<T> From<AllocFailed<T>> for RulesError {
    #[inline]
    fn from(_e: AllocFailed<T>) -> RulesError {
        RulesError::NoMemory
    }
}
