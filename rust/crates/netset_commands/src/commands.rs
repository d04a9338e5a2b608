//! The commands, and what they read.

pub mod acl;
pub mod arguments;
pub mod changes;
pub mod check;
pub mod class;
pub mod combine;
pub mod compile;
pub mod describe;
pub mod free;
pub mod help;
pub mod inside;
pub mod kept;
pub mod look;
pub mod matching;
pub mod operations;
pub mod picking;
pub mod same;
pub mod single;
pub mod smallest;
pub mod split;
pub mod table;
pub mod which;

use cidr_support::vec::Vec;
use crate::commands::acl::Question;
use crate::commands::arguments::operands_from;
use crate::commands::describe::Description;
use crate::commands::free::length_of;
use crate::commands::matching::has;
use crate::commands::operations::Operation;
use crate::commands::picking::{Picking, Seeking};
use crate::commands::single::Single;
use crate::commands::table::Verb;
use cidr::IpCidr;
use cidr_io::memory::Memory;
use cidr_lists::formats::{LineFormat, Style};
use cidr_lists::forms::{ListKind, RowForm};
use cidr_lists::lines::HostBits;
use cidr_lists::records::ListForm;
use cidr_support::alloc::{AllocError, Global};

/// A command and its arguments.
#[derive(Clone, Copy)]
pub enum Command<'a> {
    /// An operation on the lists of these files.
    Lists(Operation, &'a [&'a str]),
    /// The same, and how the networks are written.
    Styled(Style<'a>, Operation, &'a [&'a str]),
    /// The addresses of a network that no list of these files has, and how they are written, if that is told.
    NotIn(Option<Style<'a>>, &'a str, &'a [&'a str]),
    /// What the second file adds to the first one, and what it lacks, and how that is written.
    Diff(LineFormat, &'a str, &'a str),
    /// How rows are read, and two tables, of which it is told where they differ.
    Same(RowForm, &'a str, &'a str),
    /// At most so many of the free networks in a pool of a prefix length, of whose addresses others are used; `None` for all.
    Free(Option<Style<'a>>, Option<u64>, &'a str, u8, &'a [&'a str]),
    /// What is asked of an access list.
    Acl(Question<'a>, &'a str),
    /// The networks of a prefix length inside a network, or inside the networks of a list; the length also as it is typed.
    Split(Option<Style<'a>>, &'a str, &'a str, u8),
    /// What is found in the lists of these files.
    Check(&'a [&'a str]),
    /// The lines of the lists of these files that have an address.
    Which(&'a str, &'a [&'a str]),
    /// The lines of the second file that are picked by the list of the first one.
    Match(Picking, &'a str, &'a str),
    /// The lines of files that are picked by a list.
    MatchEach(Picking, &'a str, &'a [&'a str]),
    /// The longest networks of the table of the first file that have the addresses of the second one.
    Look(Seeking, &'a str, &'a str),
    /// How rows are read, the table that is compiled, and the file that is written.
    Compile(RowForm, &'a str, &'a str),
    /// Whether rows may be holes, how rows are read, and the table that is told in the fewest rows.
    Smallest(bool, RowForm, &'a str),
    /// What is told of a network, an address or the networks of a list.
    Describe(Description, &'a str),
    /// What an address, or the addresses of a file, are for.
    Class(&'a str),
    /// A command on one host or network.
    Single(Single<'a>),
    /// The page of a command, or of all.
    Help(Option<Verb>),
    /// The version.
    Version,
}

/// What is done at a line in error.
#[derive(Clone, Copy)]
pub enum AtFault {
    /// It is told, and no line behind it is read.
    Stop,
    /// Each is told, and there is no answer.
    Tell,
    /// Each is told, and the answer is that of the other lines.
    Skip,
}

/// How lists are read.
#[derive(Clone, Copy)]
pub struct Reading {
    /// What their lines are, and what is done with a set bit after the prefix of a network.
    pub list_form: ListForm,
    /// What is done at a line in error.
    pub at_fault: AtFault,
    /// Whether the first line of a table is a header.
    pub table_header: bool,
}

/// Whether a file is the standard input.
#[inline]
fn is_input(file: &str) -> bool {
    file == "-"
}

/// How many of these files are the standard input.
#[inline]
fn input_count(files: &[&str]) -> usize {
    let mut count = 0;
    for file in files {
        if is_input(file) {
            count += 1;
        }
    }
    count
}

/// Whether the standard input is more than one of these files.
#[inline]
pub fn name_input_twice(files: &[&str]) -> bool {
    input_count(files) > 1
}

/// Whether an operand is no list where this is told of it: a network, an address or, of masks, a prefix length.
#[inline]
fn is_no_list(what: Description, operand: &str) -> bool {
    match what {
        Description::Zones => is_network(operand),
        Description::Masks => match length_of(operand) {
            Some(_) => true,
            None => is_network(operand),
        },
    }
}

impl<'a> Command<'a> {
    /// The lists that it names.
    #[inline]
    pub fn lists<M: Memory>(&self, memory: &mut M) -> Result<Vec<&'a str>, AllocError> {
        let listed = self.list_names(memory.alloc());
        memory.watch(listed)
    }

    /// The lists that it names.
    fn list_names(&self, alloc: Global) -> Result<Vec<&'a str>, AllocError> {
        let mut names = Vec::new(alloc);
        match self {
            Command::Lists(_, files)
            | Command::Styled(_, _, files)
            | Command::NotIn(_, _, files)
            | Command::Check(files)
            | Command::Which(_, files) => {
                if files.is_empty() {
                    names.push("-")?;
                }
                names.extend_from_slice(files)?;
            }
            Command::Diff(_, old, new) | Command::Same(_, old, new) => {
                names.push(*old)?;
                names.push(*new)?;
            }
            Command::Free(_, _, pool, _, used) => {
                names.push(*pool)?;
                names.extend_from_slice(used)?;
            }
            Command::Match(_, list, _)
            | Command::MatchEach(_, list, _)
            | Command::Look(_, list, _)
            | Command::Compile(_, list, _)
            | Command::Smallest(_, _, list)
            | Command::Split(_, list, _, _)
            | Command::Describe(_, list) => names.push(*list)?,
            Command::Acl(_, _)
            | Command::Class(_)
            | Command::Single(_)
            | Command::Help(_)
            | Command::Version => {}
        }
        Ok(names)
    }

    /// The tables that it names, where each has a header.
    pub fn tables<M: Memory>(
        &self,
        memory: &mut M,
        header: bool,
    ) -> Result<Vec<&'a str>, AllocError> {
        let mut names = Vec::new(memory.alloc());
        if !header {
            return Ok(names);
        }
        match self {
            Command::Same(_, old, new) => {
                memory.push(&mut names, *old)?;
                memory.push(&mut names, *new)?;
            }
            Command::Look(_, table, _)
            | Command::Compile(_, table, _)
            | Command::Smallest(_, _, table) => {
                memory.push(&mut names, *table)?;
            }
            _ => {}
        }
        Ok(names)
    }

    /// Whether the first of the lists is none: a network, an address or, of `mask`, a prefix length.
    fn has_no_first_list(&self) -> bool {
        match self {
            Command::Free(_, _, pool, _, _) => is_network(pool),
            Command::Split(_, operand, _, _) => is_network(operand),
            Command::Describe(what, operand) => is_no_list(*what, operand),
            Command::Lists(_, _)
            | Command::Styled(_, _, _)
            | Command::NotIn(_, _, _)
            | Command::Diff(_, _, _)
            | Command::Same(_, _, _)
            | Command::Acl(_, _)
            | Command::Check(_)
            | Command::Which(_, _)
            | Command::Match(_, _, _)
            | Command::MatchEach(_, _, _)
            | Command::Look(_, _, _)
            | Command::Compile(_, _, _)
            | Command::Smallest(_, _, _)
            | Command::Class(_)
            | Command::Single(_)
            | Command::Help(_)
            | Command::Version => false,
        }
    }

    /// Those of its lists that are lists.
    #[inline]
    pub fn read_lists<'n>(&self, lists: &'n [&'n str]) -> &'n [&'n str] {
        if self.has_no_first_list() {
            operands_from(lists, 1)
        } else {
            lists
        }
    }

    /// The files that are read: the lists, and others behind them.
    pub fn files<M: Memory>(&self, memory: &mut M) -> Result<Vec<&'a str>, AllocError> {
        let mut names = self.lists(memory)?;
        match self {
            Command::Acl(Question::Compared(_, old), file) => {
                memory.push(&mut names, *old)?;
                memory.push(&mut names, *file)?;
            }
            Command::Match(_, _, file)
            | Command::Look(_, _, file)
            | Command::Acl(Question::Permitted(_), file)
            | Command::Acl(Question::Shadowed, file)
            | Command::Class(file) => {
                memory.push(&mut names, *file)?;
            }
            Command::MatchEach(_, _, files) => {
                let added = names.extend_from_slice(files);
                memory.watch(added)?;
            }
            _ => {}
        }
        Ok(names)
    }

    /// Whether its list may be a file of look-ups.
    #[inline]
    pub fn takes_file(&self) -> bool {
        matches!(
            self,
            Command::Match(..) | Command::MatchEach(..) | Command::Look(..)
        )
    }

    /// What the lines of the lists are.
    pub fn kind(&self) -> ListKind {
        match self {
            Command::Check(_) | Command::Which(_, _) => ListKind::Hosts,
            Command::Look(Seeking { form, .. }, _, _)
            | Command::Compile(form, _, _)
            | Command::Same(form, _, _)
            | Command::Smallest(_, form, _) => ListKind::Rows(*form),
            _ => ListKind::Networks,
        }
    }
}

/// Whether an operand reads as a network or an address.
#[inline]
fn is_network(operand: &str) -> bool {
    match operand.parse::<IpCidr>() {
        Ok(_) => true,
        Err(_) => false,
    }
}

/// What is done at a line in error, by whether `-k` and `--skip-bad` are given.
#[inline]
fn fault_way(keeps: bool, skips: bool) -> AtFault {
    match (keeps, skips) {
        (false, false) => AtFault::Stop,
        (true, false) => AtFault::Tell,
        (_, true) => AtFault::Skip,
    }
}

/// How networks are read by these options.
#[inline]
pub fn bits_of(options: &[&str]) -> HostBits {
    HostBits::by(has(options, "--host-bits"), has(options, "--masks"))
}

/// How lists of this form are read by these options.
#[inline]
pub fn reading_of(list_form: ListForm, options: &[&str]) -> Reading {
    Reading {
        list_form,
        at_fault: fault_way(has(options, "-k"), has(options, "--skip-bad")),
        table_header: has(options, "--table-header"),
    }
}
