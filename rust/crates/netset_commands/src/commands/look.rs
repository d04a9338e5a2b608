//! The longest networks of addresses.

use crate::commands::kept::{tell_lines, write_header};
use crate::commands::matching::next_part;
use crate::commands::picking::Seeking;
use crate::errors::{CommandError, ListReadError, Reason};
use crate::input::begun::FileContent;
use crate::input::files::Sources;
use crate::input::stored::Stored;
use crate::input::table::{Answer, LookUps, RowLookUps, give_table, unread};
use crate::output::answers::Verdict;
use crate::output::printing::catch_up;
use cidr_support::arrayvec::ArrayVec;
use cidr::IpAddr;
use cidr_io::block::Block;
use cidr_io::lines::{LineReader, is_too_long};
use cidr_io::memory::Memory;
use cidr_io::sink::{OutputFailed, Sink};
use cidr_io::source::Source;
use cidr_lists::errors::LineError;
use cidr_lists::fields::{Asked, asked_in};
use cidr_lists::objects::Telling;

/// Why look-ups end early.
pub enum LookError {
    /// A line is in error or can't be read.
    Reading(ListReadError),
    /// The output has failed.
    Output,
}

impl From<OutputFailed> for LookError {
    #[inline]
    fn from(_error: OutputFailed) -> LookError {
        LookError::Output
    }
}

/// How many addresses are looked up before their lines are printed.
const GROUP: usize = 64;

/// The address of a line; a line that is too long is in error.
#[inline]
pub fn address_asked(place: Asked, line: &[u8]) -> Result<Option<IpAddr>, LineError> {
    if is_too_long(line) {
        return Err(LineError::TooLong);
    }
    asked_in(place, line)
}

/// Adds the address of a line to those of others, or that it has none.
#[inline]
fn ask_line(
    place: Asked,
    line: &[u8],
    asked: &mut ArrayVec<Option<IpAddr>, GROUP>,
) -> Result<(), LineError> {
    match address_asked(place, line) {
        Ok(address) => {
            asked.push(address);
            Ok(())
        }
        Err(e) => Err(e),
    }
}

/// Reads lines from the one of a number on, and adds the address of each: of as many lines as there is room for, and only
/// of lines that are read already behind the first. Returns the number of the next line, if there is one.
fn read_group<M: Memory, R: Source>(
    memory: &mut M,
    place: Asked,
    first: u64,
    reader: &mut LineReader<R>,
    asked: &mut ArrayVec<Option<IpAddr>, GROUP>,
) -> Result<Option<u64>, ListReadError> {
    for number in first..u64::MAX {
        if asked.is_full() || (number > first && !reader.has_line()) {
            return Ok(Some(number));
        }
        let has_more = reader.read_line(memory)?;
        if let Err(e) = ask_line(place, reader.line(), asked) {
            return Err(ListReadError::Line(number, e));
        }
        if !has_more {
            return Ok(None);
        }
    }
    Ok(Some(u64::MAX))
}

/// The address that a line asks, if there is one, with what is found of it.
#[inline]
fn found_of<T: LookUps>(table: &T, ask: &Option<IpAddr>) -> Option<(IpAddr, Option<Answer>)> {
    match ask {
        Some(address) => Some((*address, table.find(address))),
        None => None,
    }
}

/// The same of many lines.
#[inline]
fn find_each<T: LookUps>(
    table: &T,
    asked: &[Option<IpAddr>],
) -> ArrayVec<Option<(IpAddr, Option<Answer>)>, GROUP> {
    let mut found = ArrayVec::new();
    for ask in asked {
        found.push(found_of(table, ask));
    }
    found
}

/// Appends the line of an address, if there is one, to a block, by what was found of it; tells whether a network has it.
#[inline]
fn push_one<T: LookUps, S: Sink>(
    table: &T,
    found: &Option<(IpAddr, Option<Answer>)>,
    block: &mut Block,
    out: &mut S,
) -> Result<bool, OutputFailed> {
    match found {
        Some((address, found)) => table.push(address, *found, block, out),
        None => Ok(false),
    }
}

/// Appends the lines of addresses to a block, by what was found of them; tells whether a network has one of them.
#[inline]
fn push_each<T: LookUps, S: Sink>(
    table: &T,
    found: &[Option<(IpAddr, Option<Answer>)>],
    block: &mut Block,
    out: &mut S,
) -> Result<bool, OutputFailed> {
    let mut any = false;
    for one in found {
        let hit = push_one(table, one, block, out)?;
        any = any || hit;
    }
    Ok(any)
}

/// Looks addresses up, and appends their lines to a block; tells whether a network has one of them.
#[inline]
fn look_each<T: LookUps, S: Sink>(
    table: &T,
    asked: &[Option<IpAddr>],
    block: &mut Block,
    out: &mut S,
) -> Result<bool, OutputFailed> {
    let found = find_each(table, asked);
    push_each(table, found.as_slice(), block, out)
}

/// Looks up the address of each line, to the end or to the first line in error, and appends their lines to a block, which
/// is written before more is read; tells whether a network has one of them.
fn look_lines<T: LookUps, M: Memory, R: Source, S: Sink>(
    memory: &mut M,
    table: &T,
    place: Asked,
    reader: &mut LineReader<R>,
    block: &mut Block,
    out: &mut S,
) -> Result<bool, LookError> {
    let mut found = false;
    let mut number = 1;
    while number < u64::MAX {
        catch_up(reader, block, out)?;
        let mut asked = ArrayVec::new();
        let read = read_group(memory, place, number, reader, &mut asked);
        let hit = look_each(table, asked.as_slice(), block, out)?;
        found = found || hit;
        match read {
            Ok(next) => match next {
                Some(next) => number = next,
                None => return Ok(found),
            },
            Err(e) => return Err(LookError::Reading(e)),
        }
    }
    Err(LookError::Reading(ListReadError::Input))
}

/// Looks up the address of each line and writes their lines in blocks, also those before a line in error; tells whether
/// a network has one of them. An output that has failed before gets nothing.
pub fn look_all<T: LookUps, M: Memory, R: Source, S: Sink>(
    memory: &mut M,
    table: &T,
    place: Asked,
    reader: &mut LineReader<R>,
    out: &mut S,
) -> Result<bool, LookError> {
    if out.failed() {
        return Err(LookError::Output);
    }
    let mut block = Block::new();
    match look_lines(memory, table, place, reader, &mut block, out) {
        Ok(found) => {
            block.flush(out)?;
            Ok(found)
        }
        Err(LookError::Reading(e)) => {
            block.flush(out)?;
            Err(LookError::Reading(e))
        }
        Err(LookError::Output) => Err(LookError::Output),
    }
}

/// Yes where an address was found.
#[inline]
pub fn verdict_of(found: bool) -> Verdict {
    if found { Verdict::Yes } else { Verdict::No }
}

/// Looks up the addresses of what is left of a file in a table, and tells them: by themselves, with their lines or as
/// objects.
fn look_left<'a, T: RowLookUps, M: Memory, R: Source, O: Sink>(
    memory: &mut M,
    table: &T,
    telling: Telling,
    place: Asked,
    file: &'a str,
    reader: &mut LineReader<R>,
    out: &mut O,
) -> Result<Verdict, CommandError<'a>> {
    match telling {
        Telling::Alone => match look_all(memory, table, place, reader, out) {
            Ok(found) => Ok(verdict_of(found)),
            Err(LookError::Reading(e)) => Err(unread(file, e)),
            Err(LookError::Output) => Err(CommandError::Output),
        },
        telling => tell_lines(memory, table, telling, place, file, reader, out),
    }
}

/// An error behind a header, by an error of what is left: the number of a line counts the header too.
fn behind_header<'a>(error: CommandError<'a>) -> CommandError<'a> {
    match error {
        CommandError::Line(file, number, e) => {
            if number == u64::MAX {
                return CommandError::Input(file, Reason::Unknown);
            }
            CommandError::Line(file, number + 1, e)
        }
        error => error,
    }
}

/// The same as `look_left` of a file whose first line is a header: its addresses are not looked up, and where lines are
/// told it is written as it is. One that is too long is in error.
fn look_behind<'a, T: RowLookUps, M: Memory, R: Source, O: Sink>(
    memory: &mut M,
    table: &T,
    telling: Telling,
    place: Asked,
    file: &'a str,
    reader: &mut LineReader<R>,
    out: &mut O,
) -> Result<Verdict, CommandError<'a>> {
    if out.failed() {
        return Err(CommandError::Output);
    }
    let has_more = match next_part(memory, file, reader) {
        Ok(has_more) => has_more,
        Err(e) => return Err(e),
    };
    if is_too_long(reader.line()) {
        return Err(CommandError::Line(file, 1, LineError::TooLong));
    }
    let Ok(()) = write_header(telling, reader.line(), has_more, out) else {
        return Err(CommandError::Output);
    };
    if !has_more {
        return Ok(Verdict::No);
    }
    match look_left(memory, table, telling, place, file, reader, out) {
        Ok(verdict) => Ok(verdict),
        Err(e) => Err(behind_header(e)),
    }
}

/// Looks up the addresses of a file in a table, and tells them. Its first line is a header or not.
fn look_in<'a, T: RowLookUps, M: Memory, F: Sources, O: Sink>(
    memory: &mut M,
    sources: &F,
    table: &T,
    seeking: Seeking,
    file: &'a str,
    out: &mut O,
) -> Result<Verdict, CommandError<'a>> {
    let reader = match sources.open(file) {
        Ok(reader) => reader,
        Err(why) => return Err(CommandError::Input(file, why)),
    };
    let Ok(mut reader) = LineReader::new(memory, reader) else {
        return Err(CommandError::NoMemory);
    };
    let (telling, place) = (seeking.telling, seeking.asked);
    if seeking.headed {
        look_behind(memory, table, telling, place, file, &mut reader, out)
    } else {
        look_left(memory, table, telling, place, file, &mut reader, out)
    }
}

/// The command `look`.
pub fn look<'a, M: Memory, F: Sources, O: Sink>(
    memory: &mut M,
    sources: &F,
    seeking: Seeking,
    table: &'a str,
    file: &'a str,
    out: &mut O,
) -> Result<Verdict, CommandError<'a>> {
    match give_table(memory, sources, seeking.form, table)? {
        FileContent::Lines(rows) => look_in(memory, sources, &rows, seeking, file, out),
        FileContent::Stored(bytes) => {
            let stored = Stored::check(memory, table, bytes.as_slice())?;
            stored.check_values(seeking.form.values, table)?;
            look_in(memory, sources, &stored, seeking, file, out)
        }
    }
}
