//! The command `check`.

use crate::errors::CommandError;
use crate::input::entries::read_entries;
use crate::input::files::Sources;
use crate::output::answers::Verdict;
use cidr_support::arrayvec::ArrayString;
use cidr::IpCidr;
use cidr_io::block::Block;
use cidr_io::decimal::decimal_text;
use cidr_io::memory::Memory;
use cidr_io::shown::MessagePart;
use cidr_io::sink::{OutputFailed, Sink};
use cidr_lists::entries::{Entry, entry_at};
use cidr_lists::findings::{Finding, FindingKind, Note, find};
use cidr_lists::near::{Near, near_at, near_lines};

/// The parts of the line of a finding: its place and what is found.
pub fn found_parts<'a>(
    file: &'a str,
    number: &'a str,
    words: &'a str,
    text: &'a str,
) -> [MessagePart<'a>; 6] {
    let colon: &'a str = ":";
    let end: &'a str = "\n";
    [
        MessagePart::Shown(file),
        MessagePart::Plain(colon),
        MessagePart::Plain(number),
        MessagePart::Plain(words),
        MessagePart::Plain(text),
        MessagePart::Plain(end),
    ]
}

/// The same of a finding that names another place.
fn placed_parts<'a>(
    file: &'a str,
    number: &'a str,
    words: &'a str,
    other: &'a str,
    line: &'a str,
) -> [MessagePart<'a>; 8] {
    let colon: &'a str = ":";
    let end: &'a str = "\n";
    [
        MessagePart::Shown(file),
        MessagePart::Plain(colon),
        MessagePart::Plain(number),
        MessagePart::Plain(words),
        MessagePart::Shown(other),
        MessagePart::Plain(colon),
        MessagePart::Plain(line),
        MessagePart::Plain(end),
    ]
}

/// The words in front of the place of a network around another one.
#[inline]
fn inside_words(outer: &IpCidr) -> ArrayString<56> {
    let mut words = ArrayString::new();
    words.push_str(": inside ");
    words.push_str(outer.to_text().as_str());
    words.push_str(" at ");
    words
}

/// Appends a finding to a block, as a line.
fn push_note<S: Sink>(block: &mut Block, out: &mut S, note: &Note<'_>) -> Result<(), OutputFailed> {
    let file = note.place.file;
    let digits = decimal_text(u128::from(note.place.number));
    let number = digits.as_str();
    match &note.finding {
        Finding::HostBits => {
            let parts = found_parts(file, number, ": host bits set", "");
            block.push_message(out, &parts)
        }
        Finding::NotCanonical(host) => {
            let text = host.to_text();
            let parts = found_parts(file, number, ": not in canonical form: ", text.as_str());
            block.push_message(out, &parts)
        }
        Finding::Repeats(place) => {
            let line = decimal_text(u128::from(place.number));
            let parts = placed_parts(file, number, ": repeats ", place.file, line.as_str());
            block.push_message(out, &parts)
        }
        Finding::Inside(outer, place) => {
            let line = decimal_text(u128::from(place.number));
            let words = inside_words(outer);
            let parts = placed_parts(file, number, words.as_str(), place.file, line.as_str());
            block.push_message(out, &parts)
        }
        Finding::Mergeable(place) => {
            let line = decimal_text(u128::from(place.number));
            let parts = placed_parts(file, number, ": mergeable with ", place.file, line.as_str());
            block.push_message(out, &parts)
        }
    }
}

/// The findings that are told so far.
struct Messages {
    /// The lines that are not written yet.
    block: Block,
    /// Yes where nothing is found.
    verdict: Verdict,
}

/// Tells the finding of a kind in a line, if there is one.
#[inline]
fn tell<S: Sink>(
    messages: &mut Messages,
    out: &mut S,
    entries: &[Entry<'_>],
    near: &[Near],
    index: usize,
    kind: FindingKind,
) -> Result<(), OutputFailed> {
    let entry = entry_at(entries, index);
    let Some(note) = find(kind, entries, near_at(near, entries, index), index, entry) else {
        return Ok(());
    };
    messages.verdict = Verdict::No;
    push_note(&mut messages.block, out, &note)
}

/// Tells the findings of a line.
#[inline]
fn tell_line<S: Sink>(
    messages: &mut Messages,
    out: &mut S,
    entries: &[Entry<'_>],
    near: &[Near],
    index: usize,
) -> Result<(), OutputFailed> {
    tell(messages, out, entries, near, index, FindingKind::HostBits)?;
    tell(messages, out, entries, near, index, FindingKind::Form)?;
    tell(messages, out, entries, near, index, FindingKind::Same)?;
    tell(messages, out, entries, near, index, FindingKind::Outer)?;
    tell(messages, out, entries, near, index, FindingKind::Half)
}

/// Writes the findings of all lines in blocks, one a line, and flushes.
fn tell_all<S: Sink>(
    out: &mut S,
    entries: &[Entry<'_>],
    near: &[Near],
) -> Result<Verdict, OutputFailed> {
    let mut messages = Messages {
        block: Block::new(),
        verdict: Verdict::Yes,
    };
    for index in 0..entries.len() {
        tell_line(&mut messages, out, entries, near, index)?;
    }
    messages.block.flush(out)?;
    Ok(messages.verdict)
}

/// Writes the findings of all lines. An output that has failed before gets nothing.
#[inline]
fn answer<S: Sink>(
    out: &mut S,
    entries: &[Entry<'_>],
    near: &[Near],
) -> Result<Verdict, OutputFailed> {
    if out.failed() {
        return Err(OutputFailed);
    }
    tell_all(out, entries, near)
}

/// The command `check`.
#[inline]
pub fn check<'a, M: Memory, F: Sources, O: Sink>(
    memory: &mut M,
    sources: &F,
    files: &'a [&'a str],
    out: &mut O,
) -> Result<Verdict, CommandError<'a>> {
    let entries = read_entries(memory, sources, files)?;
    let near = near_lines(memory.alloc(), entries.as_slice());
    let near = memory.watch(near)?;
    match answer(out, entries.as_slice(), near.as_slice()) {
        Ok(verdict) => Ok(verdict),
        Err(_) => Err(CommandError::Output),
    }
}
