//! A run of the program, from its arguments to its exit status.

use crate::errors::ToolError;
use crate::report::{report, report_no_memory};
use crate::run::run;
use cidr_io::arguments::{ArgumentReadError, Arguments, borrowed, texts_of};
use cidr_io::memory::Memory;
use cidr_io::sink::Sink;
use cidr_support::alloc::AllocError;

/// Answers the arguments. An argument that is not UTF-8 is usage.
#[inline]
fn answer<M: Memory, A: Arguments, O: Sink>(
    memory: &mut M,
    arguments: &A,
    out: &mut O,
) -> Result<Result<(), ToolError>, AllocError> {
    let texts = match texts_of(memory, arguments) {
        Ok(texts) => texts,
        Err(ArgumentReadError::NotText(_)) => return Ok(Err(ToolError::Usage)),
        Err(ArgumentReadError::NoMemory) => return Err(AllocError),
    };
    let slices = borrowed(memory, texts.as_slice())?;
    Ok(run(slices.as_slice(), out))
}

/// Answers the arguments on `out`, writes the line that belongs to the answer, if there is one, to `err`, and
/// returns the exit status: 0 for an answer, 1 for a refusal, 2 for usage, 3 where the output failed or an allocation
/// for the arguments was refused.
#[inline]
pub fn program<M: Memory, A: Arguments, O: Sink, E: Sink>(
    memory: &mut M,
    arguments: &A,
    out: &mut O,
    err: &mut E,
) -> u8 {
    match answer(memory, arguments, out) {
        Ok(answer) => report(&answer, err),
        Err(_) => report_no_memory(err),
    }
}
