//! Reading the lists of files, each as a set.

use cidr_support::vec::Vec;
use crate::errors::CommandError;
use crate::input::begun::FileContent;
use crate::input::files::Sources;
use crate::input::keeping::Said;
use crate::input::lines::{read_file_lines, read_given};
use crate::input::lists::NetworkLines;
use crate::input::stored::Stored;
use cidr_io::memory::Memory;
use cidr_lists::lists::Lists;
use cidr_lists::sets::Sets;

/// The sets of the files of a command, at least one.
pub struct Several {
    pub first: Sets,
    pub others: Vec<Sets>,
}

/// Adds the networks of the list of a file, which is read unless it is read already.
fn add_file<'a, M: Memory, F: Sources>(
    memory: &mut M,
    sources: &F,
    file: &'a str,
    lists: &mut Lists,
) -> Result<(), CommandError<'a>> {
    match sources.kept(file) {
        Some(FileContent::Lines(Said::Networks(kept))) => {
            let added = lists.extend(kept);
            memory.watch(added)?;
            Ok(())
        }
        _ => read_file_lines(memory, sources, &NetworkLines, file, lists),
    }
}

/// The addresses of the list of a file.
#[inline]
pub fn read_file<'a, M: Memory, F: Sources>(
    memory: &mut M,
    sources: &F,
    file: &'a str,
) -> Result<Sets, CommandError<'a>> {
    let mut lists = Lists::new(memory.alloc());
    add_file(memory, sources, file, &mut lists)?;
    Ok(Sets::of_lists(lists))
}

/// The bytes of a file of look-ups, or the addresses of the list of another file, which is read unless it is read already.
fn give_list<'a, M: Memory, F: Sources>(
    memory: &mut M,
    sources: &F,
    file: &'a str,
) -> Result<FileContent<Sets>, CommandError<'a>> {
    match sources.kept(file) {
        Some(FileContent::Lines(Said::Networks(kept))) => {
            let mut lists = Lists::new(memory.alloc());
            let added = lists.extend(kept);
            memory.watch(added)?;
            Ok(FileContent::Lines(Sets::of_lists(lists)))
        }
        Some(FileContent::Stored(kept)) => {
            let bytes: Result<_, _> = kept.try_clone();
            let bytes = memory.watch(bytes)?;
            Ok(FileContent::Stored(bytes))
        }
        _ => {
            let mut read = Lists::new(memory.alloc());
            let given = read_given(memory, sources, &NetworkLines, file, &mut read)?;
            match given {
                FileContent::Lines(()) => {
                    let sets = Sets::of_lists(read);
                    Ok(FileContent::Lines(sets))
                }
                FileContent::Stored(bytes) => Ok(FileContent::Stored(bytes)),
            }
        }
    }
}

/// The addresses of a list, or of the rows of a file of look-ups.
pub fn read_addresses<'a, M: Memory, F: Sources>(
    memory: &mut M,
    sources: &F,
    file: &'a str,
) -> Result<Sets, CommandError<'a>> {
    match give_list(memory, sources, file)? {
        FileContent::Lines(sets) => Ok(sets),
        FileContent::Stored(bytes) => {
            let stored = Stored::check(memory, file, bytes.as_slice())?;
            let sets = stored.addresses(memory.alloc());
            let sets = memory.watch(sets)?;
            Ok(sets)
        }
    }
}

/// The addresses of the lists of some files, each.
#[inline]
pub fn read_all<'a, M: Memory, F: Sources>(
    memory: &mut M,
    sources: &F,
    files: &[&'a str],
) -> Result<Vec<Sets>, CommandError<'a>> {
    let mut sets = Vec::new(memory.alloc());
    for file in files {
        let set = read_file(memory, sources, file)?;
        memory.push(&mut sets, set)?;
    }
    Ok(sets)
}

/// The addresses of the lists of a file and of others, each.
#[inline]
pub fn read_named<'a, M: Memory, F: Sources>(
    memory: &mut M,
    sources: &F,
    file: &'a str,
    files: &[&'a str],
) -> Result<Several, CommandError<'a>> {
    let first = read_file(memory, sources, file)?;
    let others = read_all(memory, sources, files)?;
    Ok(Several { first, others })
}

/// The addresses of the lists of a command's files, each: of the standard input, if none is named.
#[inline]
pub fn read_several<'a, M: Memory, F: Sources>(
    memory: &mut M,
    sources: &F,
    files: &[&'a str],
) -> Result<Several, CommandError<'a>> {
    match files.split_first() {
        Some((file, files)) => read_named(memory, sources, file, files),
        None => read_named(memory, sources, "-", &[]),
    }
}
