//! How far reading is, as shown on a terminal while a run takes longer than a second.

use cidr_io::source::{Source, read_uninterrupted};
use core::cell::Cell;
use cidr_system::io::{Eprint, Read, Result, Write};
use cidr_system::rt::Clock;
use core::time::Duration;

/// How many milliseconds a run takes before it shows anything, and how many what is shown stays as it is.
const FIRST: u64 = 1000;

const NEXT: u64 = 200;

/// Erases the rest of a terminal's line, in which the cursor stands at the front.
const ERASE: &str = "\x1b[K";

/// How many bytes a run has read, and when that is shown again: never, if there is no terminal or no clock.
pub struct Progress<'a, R: Clock + Eprint> {
    runtime: &'a R,
    bytes: Cell<u64>,
    due: Cell<Option<Duration>>,
    is_shown: Cell<bool>,
}

impl<'a, R: Clock + Eprint> Progress<'a, R> {
    /// Nothing is read yet. Nothing is ever shown unless it is to be.
    pub fn new(runtime: &'a R, shows: bool) -> Progress<'a, R> {
        let due = if shows {
            later(runtime, Duration::from_millis(FIRST))
        } else {
            None
        };
        Progress {
            runtime,
            bytes: Cell::new(0),
            due: Cell::new(due),
            is_shown: Cell::new(false),
        }
    }

    /// Counts bytes that were read, and shows the count where it is time to.
    fn add(&self, read: usize) {
        let bytes = self.bytes.get().saturating_add(read as u64);
        self.bytes.set(bytes);
        let Some(due) = self.due.get() else {
            return;
        };
        let Ok(now) = self.runtime.monotonic() else {
            return;
        };
        if now >= due {
            let _ = self.runtime.eprint(format_args!("{bytes} bytes read\r"));
            self.is_shown.set(true);
            self.due.set(now.checked_add(Duration::from_millis(NEXT)));
        }
    }

    /// Erases what is shown.
    #[inline]
    fn hide(&self) {
        if self.is_shown.get() {
            let _ = self.runtime.eprint(ERASE);
            self.is_shown.set(false);
        }
    }
}

/// The time on the clock after a while from now, if there is one.
#[inline]
fn later<R: Clock>(clock: &R, wait: Duration) -> Option<Duration> {
    match clock.monotonic() {
        Ok(now) => now.checked_add(wait),
        Err(_) => None,
    }
}

/// A stream that is written to only once what is shown is erased.
pub struct Erasing<'a, W: Write, R: Clock + Eprint> {
    pub out: W,
    pub progress: &'a Progress<'a, R>,
}

impl<W: Write, R: Clock + Eprint> Write for Erasing<'_, W, R> {
    #[inline]
    fn write(&mut self, buf: &[u8]) -> Result<usize> {
        self.progress.hide();
        self.out.write(buf)
    }

    #[inline]
    fn flush(&mut self) -> Result<()> {
        self.out.flush()
    }
}

/// A source whose bytes are counted as they are read. What is shown of them is erased once the source is dropped.
pub struct Watched<'a, S: Read, R: Clock + Eprint> {
    pub source: S,
    pub progress: &'a Progress<'a, R>,
}

impl<S: Read, R: Clock + Eprint> Read for Watched<'_, S, R> {
    #[inline]
    fn read(&mut self, buf: &mut [u8]) -> Result<usize> {
        let read = self.source.read(buf)?;
        self.progress.add(read);
        Ok(read)
    }
}

impl<S: Read, R: Clock + Eprint> Source for Watched<'_, S, R> {
    #[inline]
    fn read_some(&mut self, buf: &mut [u8]) -> Option<usize> {
        read_uninterrupted(self, buf)
    }
}

impl<S: Read, R: Clock + Eprint> Drop for Watched<'_, S, R> {
    #[inline]
    fn drop(&mut self) {
        let Self {
            source: _,
            progress,
        } = self;
        progress.hide();
    }
}
