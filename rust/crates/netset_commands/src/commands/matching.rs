//! The command `match`: the lines of files of which a field lies in a list, or that have an address of it.

use crate::commands::picking::Picking;
use crate::errors::{CommandError, Reason};
use crate::input::files::Sources;
use crate::input::several::read_addresses;
use crate::output::answers::{Verdict, by_output};
use crate::output::printing::{catch_up, stop};
use cidr_io::block::Block;
use cidr_io::decimal::decimal_text;
use cidr_io::lines::{LineReadError, LineReader, is_too_long};
use cidr_io::memory::Memory;
use cidr_io::sink::{OutputFailed, Sink};
use cidr_io::source::Source;
use cidr_lists::errors::LineError;
use cidr_lists::fields::network_at;
use cidr_lists::sets::Sets;

/// What is written of the lines that are picked.
#[derive(Clone, Copy, PartialEq)]
pub enum Written {
    /// The lines.
    Lines,
    /// How many they are.
    Count,
    /// Nothing.
    Nothing,
}

/// Whether an option is given.
#[inline]
pub fn has(options: &[&str], name: &str) -> bool {
    options.contains(&name)
}

/// Which lines are picked, and what is written of them.
#[derive(Clone, Copy)]
struct Matcher<'a> {
    sets: &'a Sets,
    picking: Picking,
    /// The name in front of what is written of a file that is not the only one.
    name: Option<&'a str>,
}

impl Matcher<'_> {
    /// Whether the line of this number is a header.
    #[inline]
    fn is_header(&self, number: u64) -> bool {
        self.picking.headed && number == 1
    }

    /// Whether a line is picked by its field.
    #[inline]
    fn picks_by_field(&self, line: &[u8]) -> Result<bool, LineError> {
        let network = network_at(self.picking.column, line)?;
        let lies = self.sets.have(&network);
        Ok(is_picked(self.picking.inverted, lies))
    }

    /// Whether a line is picked.
    #[inline]
    fn picks(&self, line: &[u8]) -> Result<bool, LineError> {
        if is_too_long(line) {
            return passed_over(self.picking.anywhere);
        }
        if self.picking.anywhere {
            return Ok(is_picked(self.picking.inverted, self.sets.have_one(line)));
        }
        self.picks_by_field(line)
    }
}

/// What becomes of a line that is too long: with `--any` it is passed over, and else it is in error.
#[inline]
fn passed_over(anywhere: bool) -> Result<bool, LineError> {
    if anywhere {
        return Ok(false);
    }
    Err(LineError::TooLong)
}

/// The first line that is too long, where this was the first of those before, and this line has this number.
fn first_long(long: Option<u64>, number: u64, line: &[u8]) -> Option<u64> {
    match long {
        Some(first) => Some(first),
        None => if is_too_long(line) {
            Some(number)
        } else {
            None
        },
    }
}

/// The answer of a file, or the first of its lines that is too long, if one is.
#[inline]
fn told_behind<'a>(
    file: &'a str,
    long: Option<u64>,
    answer: Result<Verdict, CommandError<'a>>,
) -> Result<Verdict, CommandError<'a>> {
    match long {
        None => answer,
        Some(number) => match answer {
            Ok(_) => Err(CommandError::Line(file, number, LineError::TooLong)),
            Err(e) => Err(e),
        },
    }
}

/// Whether a line is picked, by whether it is picked without `-v`.
#[inline]
fn is_picked(inverted: bool, lies: bool) -> bool {
    if inverted { !lies } else { lies }
}

/// Whether a part up to a line feed or to the end is a line.
#[inline]
pub fn is_line(part: &[u8], has_more: bool) -> bool {
    has_more || !part.is_empty()
}

/// Yes if a line was counted.
#[inline]
fn verdict_of(count: u64) -> Verdict {
    if count > 0 { Verdict::Yes } else { Verdict::No }
}

/// The lines that were picked: how many, and what of them is not yet written.
pub struct Gathered {
    count: u64,
    block: Block,
}

impl Gathered {
    /// No lines.
    #[inline]
    fn new() -> Gathered {
        Gathered {
            count: 0,
            block: Block::new(),
        }
    }

    /// Adds a line, with a name in front if there is one.
    #[inline]
    fn push_named<S: Sink>(
        &mut self,
        name: Option<&str>,
        out: &mut S,
        line: &[u8],
    ) -> Result<(), OutputFailed> {
        match name {
            None => self.block.push_line(out, &[line, b"\n"]),
            Some(name) => self
                .block
                .push_line(out, &[name.as_bytes(), b":", line, b"\n"]),
        }
    }

    /// Adds what is written of a line.
    #[inline]
    fn push<S: Sink>(
        &mut self,
        matcher: &Matcher<'_>,
        out: &mut S,
        line: &[u8],
    ) -> Result<(), OutputFailed> {
        match matcher.picking.written {
            Written::Lines => self.push_named(matcher.name, out, line),
            Written::Count | Written::Nothing => Ok(()),
        }
    }

    /// Takes the header of a file, its first line: it is written whatever it says, and not counted. One that is too long is
    /// in error.
    #[inline]
    fn take_header<'a, S: Sink>(
        &mut self,
        matcher: &Matcher<'_>,
        file: &'a str,
        line: &[u8],
        out: &mut S,
    ) -> Result<(), CommandError<'a>> {
        if is_too_long(line) {
            return Err(CommandError::Line(file, 1, LineError::TooLong));
        }
        match self.push(matcher, out, line) {
            Ok(()) => Ok(()),
            Err(_) => Err(CommandError::Output),
        }
    }

    /// Takes the line of a part up to a line feed or to the end, if it is one and is picked, or a header.
    fn take<'a, S: Sink>(
        &mut self,
        matcher: &Matcher<'_>,
        file: &'a str,
        number: u64,
        part: &[u8],
        has_more: bool,
        out: &mut S,
    ) -> Result<(), CommandError<'a>> {
        if !is_line(part, has_more) {
            return Ok(());
        }
        if matcher.is_header(number) {
            return self.take_header(matcher, file, part, out);
        }
        match matcher.picks(part) {
            Ok(true) => {
                self.count += 1;
                match self.push(matcher, out, part) {
                    Ok(()) => Ok(()),
                    Err(_) => Err(CommandError::Output),
                }
            }
            Ok(false) => Ok(()),
            Err(e) => Err(CommandError::Line(file, number, e)),
        }
    }

    /// Whether no more lines are needed.
    #[inline]
    fn is_done(&self, written: Written, has_more: bool) -> bool {
        !has_more || (written == Written::Nothing && self.count > 0)
    }

    /// Adds what is written behind the lines.
    #[inline]
    fn push_count<S: Sink>(
        &mut self,
        matcher: &Matcher<'_>,
        out: &mut S,
    ) -> Result<(), OutputFailed> {
        match matcher.picking.written {
            Written::Count => {
                let count = decimal_text(u128::from(self.count));
                self.push_named(matcher.name, out, count.as_str().as_bytes())
            }
            Written::Lines | Written::Nothing => Ok(()),
        }
    }

    /// Writes what is not yet written.
    #[inline]
    fn write_rest<S: Sink>(
        &mut self,
        matcher: &Matcher<'_>,
        out: &mut S,
    ) -> Result<(), OutputFailed> {
        self.push_count(matcher, out)?;
        self.block.flush(out)
    }

    /// Writes what is not yet written, and tells whether there was a line.
    #[inline]
    fn finish<'a, S: Sink>(
        &mut self,
        matcher: &Matcher<'_>,
        out: &mut S,
    ) -> Result<Verdict, CommandError<'a>> {
        let verdict = verdict_of(self.count);
        by_output(verdict, self.write_rest(matcher, out))
    }
}

/// Reads the next part of a file up to a line feed, without it, and tells whether there was one.
#[inline]
pub fn next_part<'a, M: Memory, R: Source>(
    memory: &mut M,
    file: &'a str,
    reader: &mut LineReader<R>,
) -> Result<bool, CommandError<'a>> {
    match reader.read_line(memory) {
        Ok(has_more) => Ok(has_more),
        Err(LineReadError::NoMemory) => Err(CommandError::NoMemory),
        Err(LineReadError::Failed) => Err(CommandError::Input(file, Reason::Unknown)),
    }
}

/// Reads a file line by line, and writes the lines that are picked, also those before a line in error. With `--any` a
/// line that is too long is passed over, and the first such line is the error behind the others. An output that has
/// failed before gets nothing.
fn stream<'a, M: Memory, R: Source, S: Sink>(
    memory: &mut M,
    matcher: &Matcher<'_>,
    file: &'a str,
    reader: &mut LineReader<R>,
    out: &mut S,
) -> Result<Verdict, CommandError<'a>> {
    if out.failed() {
        return Err(CommandError::Output);
    }
    let mut gathered = Gathered::new();
    let mut long = None;
    for number in 1..u64::MAX {
        let Ok(()) = catch_up(reader, &mut gathered.block, out) else {
            return Err(CommandError::Output);
        };
        let has_more = match next_part(memory, file, reader) {
            Ok(has_more) => has_more,
            Err(e) => return stop(&mut gathered.block, e, out),
        };
        long = first_long(long, number, reader.line());
        match gathered.take(matcher, file, number, reader.line(), has_more, out) {
            Ok(()) => {}
            Err(e) => return stop(&mut gathered.block, e, out),
        }
        if gathered.is_done(matcher.picking.written, has_more) {
            return told_behind(file, long, gathered.finish(matcher, out));
        }
    }
    stop(
        &mut gathered.block,
        CommandError::Input(file, Reason::Unknown),
        out,
    )
}

/// Opens a file, and writes what is written of its lines that are picked.
fn match_file<'a, M: Memory, F: Sources, O: Sink>(
    memory: &mut M,
    sources: &F,
    matcher: &Matcher<'_>,
    file: &'a str,
    out: &mut O,
) -> Result<Verdict, CommandError<'a>> {
    let reader = match sources.open(file) {
        Ok(reader) => reader,
        Err(why) => return Err(CommandError::Input(file, why)),
    };
    let Ok(mut reader) = LineReader::new(memory, reader) else {
        return Err(CommandError::NoMemory);
    };
    stream(memory, matcher, file, &mut reader, out)
}

/// The command `match` on one file.
#[inline]
pub fn matching<'a, M: Memory, F: Sources, O: Sink>(
    memory: &mut M,
    sources: &F,
    picking: Picking,
    list: &'a str,
    file: &'a str,
    out: &mut O,
) -> Result<Verdict, CommandError<'a>> {
    let sets = read_addresses(memory, sources, list)?;
    let matcher = Matcher {
        sets: &sets,
        picking,
        name: None,
    };
    match_file(memory, sources, &matcher, file, out)
}

/// Yes if one of the two is.
#[inline]
fn either(one: Verdict, other: Verdict) -> Verdict {
    match one {
        Verdict::Yes => Verdict::Yes,
        Verdict::No => other,
    }
}

/// Whether no more files are needed.
#[inline]
fn needs_no_more(written: Written, verdict: Verdict) -> bool {
    written == Written::Nothing && verdict == Verdict::Yes
}

/// Writes what is written of the lines that are picked of some files, one file after another, the name of its file in
/// front of each line. The first file that has an error is the last one. An output that has failed before gets nothing.
fn match_files<'a, M: Memory, F: Sources, O: Sink>(
    memory: &mut M,
    sources: &F,
    matcher: &Matcher<'_>,
    files: &[&'a str],
    out: &mut O,
) -> Result<Verdict, CommandError<'a>> {
    if out.failed() {
        return Err(CommandError::Output);
    }
    let mut verdict = Verdict::No;
    for file in files {
        let named = Matcher {
            sets: matcher.sets,
            picking: matcher.picking,
            name: Some(*file),
        };
        let one = match_file(memory, sources, &named, file, out)?;
        verdict = either(verdict, one);
        if needs_no_more(matcher.picking.written, verdict) {
            return Ok(verdict);
        }
    }
    Ok(verdict)
}

/// The command `match` on several files.
#[inline]
pub fn match_each<'a, M: Memory, F: Sources, O: Sink>(
    memory: &mut M,
    sources: &F,
    picking: Picking,
    list: &'a str,
    files: &[&'a str],
    out: &mut O,
) -> Result<Verdict, CommandError<'a>> {
    let addresses = read_addresses(memory, sources, list)?;
    let matcher = Matcher {
        sets: &addresses,
        picking,
        name: None,
    };
    match_files(memory, sources, &matcher, files, out)
}
