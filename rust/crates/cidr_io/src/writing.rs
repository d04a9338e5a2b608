//! Writing a whole string to a sink that may take it in parts.

use crate::sink::{OutputFailed, Sink};

/// Writes all bytes: offers what is left until all is taken, or the sink fails, which has a beginning of them then.
pub fn write_all<S: Sink>(out: &mut S, text: &[u8]) -> Result<(), OutputFailed> {
    let mut rest = text;
    while !rest.is_empty() {
        let Some(n) = out.write(rest) else {
            return Err(OutputFailed);
        };
        rest = &rest[n..];
    }
    Ok(())
}

/// Sends on what was taken. The error is that the sink has failed.
#[inline]
pub fn flush<S: Sink>(out: &mut S) -> Result<(), OutputFailed> {
    if out.flush() {
        Ok(())
    } else {
        Err(OutputFailed)
    }
}

/// Writes a string, by one call of `write` where the sink takes all of it, and flushes. A sink that has failed before
/// gets nothing.
#[inline]
pub fn write_text<S: Sink>(out: &mut S, text: &str) -> Result<(), OutputFailed> {
    if out.failed() {
        return Err(OutputFailed);
    }
    write_all(out, text.as_bytes())?;
    flush(out)
}

/// Writes a line as `write_text` does, as far as the sink takes it: whether it does is known to the sink alone.
#[inline]
pub fn say<E: Sink>(err: &mut E, line: &str) {
    let _ = write_text(err, line);
}
