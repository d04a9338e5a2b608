//! Reading lines of any kind, to the end of a file or to its first line in error.

use crate::errors::{CommandError, ListReadError};
use crate::input::begun::{FileContent, begin_file, read_whole};
use crate::input::files::Sources;
use crate::input::table::unread;
use cidr_io::lines::LineReader;
use cidr_io::memory::Memory;
use cidr_io::source::Source;
use cidr_lists::records::ListForm;

/// What lines are.
pub trait LineKind: Sized {
    /// What they say.
    type Said;

    /// Adds what a line says, by its number from 1 on.
    fn add_line<M: Memory>(
        &self,
        memory: &mut M,
        list_form: ListForm,
        number: u64,
        line: &[u8],
        said: &mut Self::Said,
    ) -> Result<(), ListReadError>;
}

/// Reads lines to their end or to the first in error, and adds what they say.
fn read_lines<K: LineKind, M: Memory, S: Source>(
    memory: &mut M,
    kind: &K,
    list_form: ListForm,
    reader: &mut LineReader<S>,
    said: &mut K::Said,
) -> Result<(), ListReadError> {
    for number in 1..u64::MAX {
        let has_more = reader.read_line(memory)?;
        kind.add_line(memory, list_form, number, reader.line(), said)?;
        if !has_more {
            return Ok(());
        }
    }
    Err(ListReadError::Input)
}

/// The same of a source.
#[inline]
fn read_source<K: LineKind, M: Memory, S: Source>(
    memory: &mut M,
    kind: &K,
    list_form: ListForm,
    source: S,
    said: &mut K::Said,
) -> Result<(), ListReadError> {
    let mut reader = LineReader::new(memory, source)?;
    read_lines(memory, kind, list_form, &mut reader, said)
}

/// The same of the file of a name.
pub fn read_file_lines<'a, K: LineKind, M: Memory, F: Sources>(
    memory: &mut M,
    sources: &F,
    kind: &K,
    file: &'a str,
    said: &mut K::Said,
) -> Result<(), CommandError<'a>> {
    let reader = match sources.open(file) {
        Ok(reader) => reader,
        Err(why) => return Err(CommandError::Input(file, why)),
    };
    match read_source(memory, kind, sources.list_form(), reader, said) {
        Ok(()) => Ok(()),
        Err(e) => Err(unread(file, e)),
    }
}

/// The same, unless the file begins as one of look-ups, whose bytes are returned then.
pub fn read_given<'a, K: LineKind, M: Memory, F: Sources>(
    memory: &mut M,
    sources: &F,
    kind: &K,
    file: &'a str,
    said: &mut K::Said,
) -> Result<FileContent<()>, CommandError<'a>> {
    let begun = begin_file(sources, file)?;
    if begun.is_stored() {
        let bytes = read_whole(memory, file, begun)?;
        return Ok(FileContent::Stored(bytes));
    }
    match read_source(memory, kind, sources.list_form(), begun, said) {
        Ok(()) => Ok(FileContent::Lines(())),
        Err(e) => Err(unread(file, e)),
    }
}
