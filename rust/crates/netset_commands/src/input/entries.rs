//! Reading the lines of lists that have a network or a host.

use cidr_support::vec::Vec;
use crate::errors::{CommandError, ListReadError};
use crate::input::begun::FileContent;
use crate::input::files::Sources;
use crate::input::keeping::Said;
use crate::input::lines::{LineKind, read_file_lines};
use cidr_io::lines::is_too_long;
use cidr_io::memory::Memory;
use cidr_lists::entries::{Entry, Place, entry_of};
use cidr_lists::errors::LineError;
use cidr_lists::records::ListForm;
use cidr_support::alloc::AllocError;

/// Adds the entry that a line has, if it has one.
pub fn add_entry_line<'a, M: Memory>(
    memory: &mut M,
    place: Place<'a>,
    line: &[u8],
    entries: &mut Vec<Entry<'a>>,
) -> Result<(), ListReadError> {
    if is_too_long(line) {
        return Err(ListReadError::Line(place.number, LineError::TooLong));
    }
    match entry_of(place, line) {
        Ok(Some(entry)) => {
            memory.push(entries, entry)?;
            Ok(())
        }
        Ok(None) => Ok(()),
        Err(e) => Err(ListReadError::Line(place.number, e)),
    }
}

/// Lines of the list of a file that have a network or a host.
#[derive(Clone, Copy)]
pub struct HostLines<'a> {
    /// The name of the file.
    pub file: &'a str,
}

impl<'a> LineKind for HostLines<'a> {
    type Said = Vec<Entry<'a>>;

    #[inline]
    fn add_line<M: Memory>(
        &self,
        memory: &mut M,
        _list_form: ListForm,
        number: u64,
        line: &[u8],
        said: &mut Vec<Entry<'a>>,
    ) -> Result<(), ListReadError> {
        let place = Place {
            file: self.file,
            number,
        };
        add_entry_line(memory, place, line, said)
    }
}

/// Adds entries of a file of no name as those of a file.
fn add_kept<'a, M: Memory>(
    memory: &mut M,
    file: &'a str,
    kept: &[Entry<'_>],
    entries: &mut Vec<Entry<'a>>,
) -> Result<(), AllocError> {
    for entry in kept {
        let place = Place {
            file,
            number: entry.place.number,
        };
        memory.push(
            entries,
            Entry {
                place,
                host: entry.host,
                is_canonical: entry.is_canonical,
            },
        )?;
    }
    Ok(())
}

/// Adds the entries of the list of a file, which is read unless it is read already.
#[inline]
fn add_file<'a, M: Memory, F: Sources>(
    memory: &mut M,
    sources: &F,
    file: &'a str,
    entries: &mut Vec<Entry<'a>>,
) -> Result<(), CommandError<'a>> {
    match sources.kept(file) {
        Some(FileContent::Lines(Said::Hosts(kept))) => {
            add_kept(memory, file, kept.as_slice(), entries)?;
            Ok(())
        }
        _ => read_file_lines(memory, sources, &HostLines { file }, file, entries),
    }
}

/// The entries of the lists of a file and of others.
#[inline]
fn read_named<'a, M: Memory, F: Sources>(
    memory: &mut M,
    sources: &F,
    file: &'a str,
    files: &[&'a str],
) -> Result<Vec<Entry<'a>>, CommandError<'a>> {
    let mut entries = Vec::new(memory.alloc());
    add_file(memory, sources, file, &mut entries)?;
    for other in files {
        add_file(memory, sources, other, &mut entries)?;
    }
    Ok(entries)
}

/// The entries of the lists of a command's files: of the standard input, if none is named.
#[inline]
pub fn read_entries<'a, M: Memory, F: Sources>(
    memory: &mut M,
    sources: &F,
    files: &[&'a str],
) -> Result<Vec<Entry<'a>>, CommandError<'a>> {
    match files.split_first() {
        Some((file, files)) => read_named(memory, sources, file, files),
        None => read_named(memory, sources, "-", &[]),
    }
}
