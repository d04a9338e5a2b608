//! Streams.

use crate::c;
use std::fmt::Display;
use std::fs::File;
pub use std::io::{Error, ErrorKind, IsTerminal, Read, Result, Write};
use std::mem::ManuallyDrop;

/// Has a standard error.
pub trait Eprint {
    /// Writes a value to it.
    fn eprint<D: Display>(&self, value: D) -> Result<()>;
}

/// Has a standard input.
pub trait Input {
    /// What reads it.
    type Reader: Read;

    /// Reads it.
    fn reader(&self) -> Self::Reader;
}

/// A standard stream, without a buffer. It is not closed where it is dropped.
pub struct Stream(ManuallyDrop<File>);

impl Stream {
    pub(crate) fn of(number: i32) -> Stream {
        Stream(c::stream(number))
    }

    /// Whether it is a terminal.
    pub fn is_terminal(&self) -> bool {
        self.0.is_terminal()
    }
}

impl Read for Stream {
    fn read(&mut self, buf: &mut [u8]) -> Result<usize> {
        self.0.read(buf)
    }
}

impl Write for Stream {
    fn write(&mut self, buf: &[u8]) -> Result<usize> {
        self.0.write(buf)
    }

    fn flush(&mut self) -> Result<()> {
        Ok(())
    }
}
