//! What an answer tells by the exit status, and what an output that failed is to a command.

use crate::errors::CommandError;
use cidr_io::sink::OutputFailed;

/// What an answer tells by the exit status.
#[derive(Clone, Copy, PartialEq)]
pub enum Verdict {
    /// Done, or yes: 0.
    Yes,
    /// None, no, or findings: 1.
    No,
}

/// The result of a command whose answer was written, or else a beginning of it.
#[inline]
pub fn by_output<'a>(
    verdict: Verdict,
    written: Result<(), OutputFailed>,
) -> Result<Verdict, CommandError<'a>> {
    match written {
        Ok(()) => Ok(verdict),
        Err(_) => Err(CommandError::Output),
    }
}
