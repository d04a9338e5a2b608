//! What a program writes to: a sink that may take a part of what it is offered, and may fail.

use cidr_system::io;
use cidr_system::io::Write;

/// The output has failed, and a beginning of what was to be written was written.
#[derive(Clone, Copy, Debug, PartialEq)]
pub struct OutputFailed;

/// Takes bytes, and remembers whether it has failed.
pub trait Sink: Sized {
    /// Offers bytes: `Some(n)` took the first n of them, at least one if there are any, and `None` took nothing
    /// and is a failure. No bytes give `Some(0)` and change nothing.
    fn write(&mut self, bytes: &[u8]) -> Option<usize>;

    /// Sends on what was taken; false is a failure.
    fn flush(&mut self) -> bool;

    /// Whether a call of `write` or `flush` has failed.
    fn failed(&self) -> bool;
}

/// A sink that knows whether anybody still reads it.
pub trait Output: Sized + Sink {
    /// Whether a call of `write` or `flush` has failed because nobody reads what was written any more.
    fn is_closed(&self) -> bool;
}

/// A writer that remembers whether it has failed, and whether that was because nobody reads it any more
/// (`BrokenPipe`).
///
/// An error of the writer, also an interrupted call, is a failure, and so is a write that takes none of some bytes.
pub struct Tracked<W: Write> {
    out: W,
    failed: bool,
    closed: bool,
}

impl<W: Write> Tracked<W> {
    /// A sink over this writer, which has not failed yet.
    #[inline]
    pub fn new(out: W) -> Self {
        Tracked {
            out,
            failed: false,
            closed: false,
        }
    }

    /// Gives the writer back.
    #[inline]
    pub fn into_inner(self) -> W {
        let Tracked {
            out,
            failed: _,
            closed: _,
        } = self;
        out
    }

    /// Remembers an error.
    #[inline]
    fn fail(&mut self, error: &io::Error) {
        self.failed = true;
        self.closed |= error.kind() == io::ErrorKind::BrokenPipe;
    }
}

impl<W: Write> Sink for Tracked<W> {
    fn write(&mut self, bytes: &[u8]) -> Option<usize> {
        if bytes.is_empty() {
            return Some(0);
        }
        match self.out.write(bytes) {
            Ok(0) => {
                self.failed = true;
                None
            }
            Ok(n) => Some(n),
            Err(e) => {
                self.fail(&e);
                None
            }
        }
    }

    #[inline]
    fn flush(&mut self) -> bool {
        match self.out.flush() {
            Ok(()) => true,
            Err(e) => {
                self.fail(&e);
                false
            }
        }
    }

    #[inline]
    fn failed(&self) -> bool {
        self.failed
    }
}

impl<W: Write> Output for Tracked<W> {
    #[inline]
    fn is_closed(&self) -> bool {
        self.closed
    }
}
