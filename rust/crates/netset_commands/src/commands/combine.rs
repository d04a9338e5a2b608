//! Sets put together.

use crate::commands::operations::{Operation, step_of, turns};
use crate::input::several::Several;
use cidr_lists::sets::{Sets, combined};
use cidr_support::alloc::AllocError;

/// What an operation makes of sets.
#[inline]
pub fn combination(operation: Operation, several: Several) -> Result<Sets, AllocError> {
    let Several { first, others } = several;
    let all = combined(step_of(operation), first, others.as_slice())?;
    if turns(operation) {
        let rest = all.complement()?;
        return Ok(rest);
    }
    Ok(all)
}
