//! The command `help`.

use crate::commands::matching::has;
use crate::commands::table::{
    FORMAT, FORMS, HOST_BITS, KEEP_GOING, LISTS, OPTIONS, OUTPUT, SKIP_BAD, TABLE_SEPARATOR, Verb,
    about_of, commands, options_of, takes_value,
};
use crate::output::report::{push_texts, write_line};
use cidr_io::block::Block;
use cidr_io::sink::{OutputFailed, Sink};

/// Appends what is said of commands to a block.
#[inline]
fn push_abouts<S: Sink>(
    block: &mut Block,
    out: &mut S,
    commands: &[Verb],
) -> Result<(), OutputFailed> {
    for command in commands {
        block.push(out, about_of(*command).as_bytes())?;
    }
    Ok(())
}

/// Appends the page of all commands to a block.
fn push_page<S: Sink>(block: &mut Block, out: &mut S) -> Result<(), OutputFailed> {
    push_abouts(block, out, commands())?;
    push_texts(
        block,
        out,
        &[
            OPTIONS,
            HOST_BITS,
            KEEP_GOING,
            SKIP_BAD,
            FORMS,
            TABLE_SEPARATOR,
            FORMAT,
            OUTPUT,
            LISTS,
        ],
    )
}

/// Writes the page of all commands, and flushes.
#[inline]
fn write_page<S: Sink>(out: &mut S) -> Result<(), OutputFailed> {
    if out.failed() {
        return Err(OutputFailed);
    }
    let mut block = Block::new();
    push_page(&mut block, out)?;
    block.flush(out)
}

/// A note on an option, if the command has the option.
#[inline]
fn note_of<'a>(command: Verb, option: &str, note: &'a str) -> &'a str {
    if has(options_of(command), option) || takes_value(command, option) {
        note
    } else {
        ""
    }
}

/// Writes the page of a command, or of all, and flushes. Its block takes no room on the stack of other commands.
#[inline(never)]
pub fn write_help<S: Sink>(topic: Option<Verb>, out: &mut S) -> Result<(), OutputFailed> {
    match topic {
        Some(command) => write_line(
            out,
            &[
                about_of(command),
                note_of(command, "--host-bits", HOST_BITS),
                note_of(command, "-k", KEEP_GOING),
                note_of(command, "--skip-bad", SKIP_BAD),
                note_of(command, "--form", FORMS),
                note_of(command, "--table-separator", TABLE_SEPARATOR),
                note_of(command, "--prefix", FORMAT),
                note_of(command, "-o", OUTPUT),
            ],
        ),
        None => write_page(out),
    }
}
