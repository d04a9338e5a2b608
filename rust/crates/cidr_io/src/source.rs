//! What a program reads from: a source that may give a part of what it is asked for, and may fail.

use cidr_system::io;
use cidr_system::io::Read;

/// Gives bytes.
pub trait Source: Sized {
    /// Reads bytes to the start of `buf`: `Some(n)` are n bytes, none only at the end or where there is no room, and
    /// `None` is a read that failed.
    fn read_some(&mut self, buf: &mut [u8]) -> Option<usize>;
}

impl Source for &[u8] {
    #[inline]
    fn read_some(&mut self, buf: &mut [u8]) -> Option<usize> {
        let count = self.len().min(buf.len());
        let (front, rest) = self.split_at(count);
        let (room, _) = buf.split_at_mut(count);
        room.copy_from_slice(front);
        *self = rest;
        Some(count)
    }
}

/// How often a read is tried that a signal interrupts.
const TRIES: usize = 1_000_000;

/// Reads bytes of a reader to the start of `buf`, again where a signal interrupts it; `None` is a read that failed, or
/// that was interrupted a million times, and nothing was read.
pub fn read_uninterrupted<R: Read>(reader: &mut R, buf: &mut [u8]) -> Option<usize> {
    for _tries in 0..TRIES {
        match reader.read(buf) {
            Ok(count) => return Some(count),
            Err(e) if e.kind() == io::ErrorKind::Interrupted => {}
            Err(_) => return None,
        }
    }
    None
}
