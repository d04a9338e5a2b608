//! Writing what is collected in blocks: networks, one a line, and the lines of a file that is read at the same time.

use crate::errors::CommandError;
use crate::output::answers::Verdict;
use cidr::FamilyCidr;
use cidr_io::block::Block;
use cidr_io::lines::LineReader;
use cidr_io::sink::{OutputFailed, Sink};
use cidr_io::source::Source;

/// Writes the lines of a block before more is read, so that they don't wait for it.
#[inline]
pub fn catch_up<R: Source, S: Sink>(
    reader: &LineReader<R>,
    block: &mut Block,
    out: &mut S,
) -> Result<(), OutputFailed> {
    if block.is_empty() || reader.has_line() {
        return Ok(());
    }
    block.flush(out)
}

/// Writes what is not yet written where no more lines are read for an error, and returns it, or that the output has failed.
#[inline]
pub fn stop<'a, S: Sink>(
    block: &mut Block,
    error: CommandError<'a>,
    out: &mut S,
) -> Result<Verdict, CommandError<'a>> {
    match error {
        CommandError::Output => Err(CommandError::Output),
        error => match block.flush(out) {
            Ok(()) => Err(error),
            Err(_) => Err(CommandError::Output),
        },
    }
}

/// Writes networks in blocks, one a line.
#[inline]
pub fn write_networks<C: FamilyCidr, S: Sink>(
    out: &mut S,
    networks: &[C],
) -> Result<(), OutputFailed> {
    let mut block = Block::new();
    for network in networks {
        let text = network.to_text();
        block.push_line(out, &[text.as_str().as_bytes(), b"\n"])?;
    }
    block.write(out)
}
