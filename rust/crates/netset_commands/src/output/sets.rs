//! Writing sets.

use crate::errors::CommandError;
use crate::output::answers::{Verdict, by_output};
use crate::output::printing::write_networks;
use crate::output::report::write_line;
use cidr_io::decimal::count_text;
use cidr_io::memory::Memory;
use cidr_io::sink::{OutputFailed, Sink};
use cidr_io::writing::{flush, write_all};
use cidr_lists::formats::Style;
use cidr_lists::sets::Sets;

/// Writes the networks, one a line. An output that has failed before gets nothing.
#[inline]
pub fn write_sets<S: Sink>(out: &mut S, sets: &Sets) -> Result<(), OutputFailed> {
    if out.failed() {
        return Err(OutputFailed);
    }
    write_networks(out, sets.v4.as_slice())?;
    write_networks(out, sets.v6.as_slice())?;
    flush(out)
}

/// Writes bytes, and flushes. An output that has failed before gets nothing.
#[inline]
pub fn write_bytes<S: Sink>(out: &mut S, bytes: &[u8]) -> Result<(), OutputFailed> {
    if out.failed() {
        return Err(OutputFailed);
    }
    write_all(out, bytes)?;
    flush(out)
}

/// Writes the networks in a style, whose text is made whole before it is written, or one a line where there is none.
pub fn write_by<'a, M: Memory, S: Sink>(
    memory: &mut M,
    style: Option<Style<'_>>,
    sets: &Sets,
    out: &mut S,
) -> Result<Verdict, CommandError<'a>> {
    match style {
        None => by_output(Verdict::Yes, write_sets(out, sets)),
        Some(style) => {
            let text = sets.to_style(memory.alloc(), &style);
            let text = memory.watch(text)?;
            by_output(Verdict::Yes, write_bytes(out, text.as_slice()))
        }
    }
}

/// Writes how many addresses of each family there are, a line each. An output that has failed before gets nothing.
#[inline]
pub fn write_counts<S: Sink>(out: &mut S, sets: &Sets) -> Result<(), OutputFailed> {
    let v4 = count_text(sets.v4.address_count());
    let v6 = count_text(sets.v6.address_count());
    write_line(out, &["IPv4 ", v4.as_str(), "\nIPv6 ", v6.as_str(), "\n"])
}
