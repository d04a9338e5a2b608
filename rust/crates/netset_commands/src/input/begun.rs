//! Files that may be files of look-ups, known by their first byte.

use cidr_support::vec::Vec;
use crate::errors::{CommandError, Reason};
use crate::input::files::Sources;
use cidr_io::lines::{LineReadError, read_to_end};
use cidr_io::memory::Memory;
use cidr_io::source::Source;

/// The first byte of a file of look-ups, which begins no UTF-8 text.
const FIRST: u8 = 0x89;

/// What a file has in the place of a list or of a table.
pub enum FileContent<T> {
    /// What its lines say.
    Lines(T),
    /// The bytes of a file that begins as one of look-ups.
    Stored(Vec<u8>),
}

/// A source whose first byte was read.
pub struct Begun<S: Source> {
    first: Option<u8>,
    source: S,
}

impl<S: Source> Begun<S> {
    /// Whether it begins as a file of look-ups.
    #[inline]
    pub fn is_stored(&self) -> bool {
        match self.first {
            Some(first) => first == FIRST,
            None => false,
        }
    }
}

impl<S: Source> Source for Begun<S> {
    fn read_some(&mut self, buf: &mut [u8]) -> Option<usize> {
        let Some(first) = self.first else {
            return self.source.read_some(buf);
        };
        if buf.is_empty() {
            return Some(0);
        }
        buf[0] = first;
        self.first = None;
        Some(1)
    }
}

/// Reads the first byte of a source, if it has one; `None` where the read fails.
#[inline]
fn begin<S: Source>(source: S) -> Option<Begun<S>> {
    let mut source = source;
    let mut room = [0];
    let count = source.read_some(&mut room)?;
    let first = if count == 0 { None } else { Some(room[0]) };
    Some(Begun { first, source })
}

/// Opens the file of a name and reads its first byte, if it has one.
pub fn begin_file<'a, F: Sources>(
    sources: &F,
    file: &'a str,
) -> Result<Begun<F::Reader>, CommandError<'a>> {
    let reader = match sources.open(file) {
        Ok(reader) => reader,
        Err(why) => return Err(CommandError::Input(file, why)),
    };
    match begin(reader) {
        Some(begun) => Ok(begun),
        None => Err(CommandError::Input(file, Reason::Unknown)),
    }
}

/// The bytes of the file of a name, whose first byte was read.
#[inline]
pub fn read_whole<'a, M: Memory, S: Source>(
    memory: &mut M,
    file: &'a str,
    begun: Begun<S>,
) -> Result<Vec<u8>, CommandError<'a>> {
    match read_to_end(memory, begun) {
        Ok(bytes) => Ok(bytes),
        Err(LineReadError::Failed) => Err(CommandError::Input(file, Reason::Unknown)),
        Err(LineReadError::NoMemory) => Err(CommandError::NoMemory),
    }
}
