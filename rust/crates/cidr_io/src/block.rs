//! Lines that are collected and written in blocks, so that a line is written by one call.

use crate::shown::{MessagePart, shown_char};
use crate::sink::{OutputFailed, Sink};
use crate::writing::{flush, write_all};
use cidr_support::arrayvec::ArrayVec;

/// The most bytes that are collected.
const BLOCK: usize = 8192;

/// Lines that are collected to be written by one call: at most 8,192 bytes, in the block itself, so that nothing is
/// allocated.
///
/// By `push_line` and `push_message` a block ends where a line ends, but for a line that is longer than a block. After
/// an error a beginning of what was collected and of what was to come behind it was written, and what is collected is
/// not told.
pub struct Block {
    collected: ArrayVec<u8, BLOCK>,
}

/// How many bytes parts have.
#[inline]
fn total_len(parts: &[&[u8]]) -> usize {
    let mut len = 0usize;
    for part in parts {
        len = len.saturating_add(part.len());
    }
    len
}

/// The most bytes that the parts of a message may have: four for each byte of a string that is shown.
fn most_len(parts: &[MessagePart<'_>]) -> usize {
    let mut len = 0usize;
    for part in parts {
        len = len.saturating_add(match part {
            MessagePart::Plain(text) => text.len(),
            MessagePart::Shown(text) => text.len().saturating_mul(4),
        });
    }
    len
}

impl Block {
    /// The block that has no bytes.
    #[inline]
    pub fn new() -> Block {
        Block {
            collected: ArrayVec::new(),
        }
    }

    /// Whether nothing is collected.
    #[inline]
    pub fn is_empty(&self) -> bool {
        self.collected.is_empty()
    }

    /// Writes what is collected, unless there is room behind it for so many bytes.
    #[inline]
    fn make_room<S: Sink>(&mut self, out: &mut S, len: usize) -> Result<(), OutputFailed> {
        if self.collected.len().saturating_add(len) <= BLOCK {
            return Ok(());
        }
        self.write(out)
    }

    /// Appends bytes, wherever a line ends. Where there is no room for them, what is collected is written first, and
    /// they too where they are more than a block.
    pub fn push<S: Sink>(&mut self, out: &mut S, bytes: &[u8]) -> Result<(), OutputFailed> {
        let Err(_) = self.collected.try_extend_from_slice(bytes) else {
            return Ok(());
        };
        self.write(out)?;
        let Err(_) = self.collected.try_extend_from_slice(bytes) else {
            return Ok(());
        };
        write_all(out, bytes)
    }

    /// Appends the bytes of several parts, each as `push` does.
    #[inline]
    fn push_parts<S: Sink>(&mut self, out: &mut S, parts: &[&[u8]]) -> Result<(), OutputFailed> {
        for part in parts {
            self.push(out, part)?;
        }
        Ok(())
    }

    /// Appends a line of several parts, the last of which ends it. Where there is no room for all of it, what is
    /// collected is written first.
    #[inline]
    pub fn push_line<S: Sink>(&mut self, out: &mut S, parts: &[&[u8]]) -> Result<(), OutputFailed> {
        self.make_room(out, total_len(parts))?;
        self.push_parts(out, parts)
    }

    /// Writes what is collected.
    #[inline]
    pub fn write<S: Sink>(&mut self, out: &mut S) -> Result<(), OutputFailed> {
        write_all(out, self.collected.as_slice())?;
        self.collected.clear();
        Ok(())
    }

    /// Writes what is collected, and flushes.
    #[inline]
    pub fn flush<S: Sink>(&mut self, out: &mut S) -> Result<(), OutputFailed> {
        self.write(out)?;
        flush(out)
    }

    /// Appends a string from outside, as it is shown in a message.
    #[inline]
    fn push_shown<S: Sink>(&mut self, out: &mut S, text: &str) -> Result<(), OutputFailed> {
        for c in text.chars() {
            self.push(out, shown_char(c).as_str().as_bytes())?;
        }
        Ok(())
    }

    /// Appends a part of a message.
    #[inline]
    fn push_part<S: Sink>(&mut self, out: &mut S, part: MessagePart<'_>) -> Result<(), OutputFailed> {
        match part {
            MessagePart::Plain(text) => self.push(out, text.as_bytes()),
            MessagePart::Shown(text) => self.push_shown(out, text),
        }
    }

    /// Appends the parts of a message, the last of which ends in a line feed. Where there may be no room for all of
    /// them, four bytes for each byte of a string that is shown, what is collected is written first.
    #[inline]
    pub fn push_message<S: Sink>(
        &mut self,
        out: &mut S,
        parts: &[MessagePart<'_>],
    ) -> Result<(), OutputFailed> {
        self.make_room(out, most_len(parts))?;
        for part in parts {
            self.push_part(out, *part)?;
        }
        Ok(())
    }

    /// Appends a line as `push_line` does, as far as the sink takes lines: one that has failed gets nothing.
    #[inline]
    pub fn say<S: Sink>(&mut self, out: &mut S, parts: &[&[u8]]) {
        if !out.failed() {
            let _ = self.push_line(out, parts);
        }
    }

    /// Appends a message as `push_message` does, as far as the sink takes messages: one that has failed gets nothing.
    #[inline]
    pub fn say_message<S: Sink>(&mut self, out: &mut S, parts: &[MessagePart<'_>]) {
        if !out.failed() {
            let _ = self.push_message(out, parts);
        }
    }

    /// Writes what is left of the lines, and flushes. A sink that has failed gets nothing.
    #[inline]
    pub fn end<S: Sink>(&mut self, out: &mut S) {
        if !out.failed() {
            let _ = self.flush(out);
        }
    }
}
