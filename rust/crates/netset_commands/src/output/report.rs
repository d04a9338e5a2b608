//! The exit status, and what is written to standard error.

use crate::errors::{ArgumentError, CommandError, FileError, Misfit, Misuse, Reason, Unsaved};
use crate::output::answers::Verdict;
use cidr_support::arrayvec::ArrayString;
use cidr_io::block::Block;
use cidr_io::decimal::decimal_text;
use cidr_io::shown::{MessagePart, excerpt};
use cidr_io::sink::{OutputFailed, Sink};
use cidr_lists::errors::{LineError, wrong_words};

/// The message of an argument that is wrong.
fn argument_message(error: &ArgumentError) -> ArrayString<99> {
    let mut text = ArrayString::new();
    match error {
        ArgumentError::Network(wrong, e) => return wrong_words(wrong, e.to_text()),
        ArgumentError::Length => text.push_str("no prefix length inside the network"),
        ArgumentError::Index => text.push_str("no index below 2^128"),
        ArgumentError::NoAddress => text.push_str("no address"),
        ArgumentError::AddressOrFile => text.push_str("no address, and no file that can be read"),
        ArgumentError::Operand => {
            text.push_str("no network and no address, and no file that can be read");
        }
        ArgumentError::ReadTwice => text.push_str("standard input can be read only once"),
    }
    text
}

/// Appends strings to a block, behind one another.
#[inline]
pub fn push_texts<S: Sink>(
    block: &mut Block,
    out: &mut S,
    texts: &[&str],
) -> Result<(), OutputFailed> {
    for text in texts {
        block.push(out, text.as_bytes())?;
    }
    Ok(())
}

/// Writes a line of several parts, and flushes. A sink that has failed before gets nothing.
#[inline]
pub fn write_line<S: Sink>(out: &mut S, parts: &[&str]) -> Result<(), OutputFailed> {
    if out.failed() {
        return Err(OutputFailed);
    }
    let mut block = Block::new();
    push_texts(&mut block, out, parts)?;
    block.flush(out)
}

/// Writes a message of several parts, and flushes. A sink that has failed before gets nothing.
#[inline]
fn write_message<S: Sink>(out: &mut S, parts: &[MessagePart<'_>]) -> Result<(), OutputFailed> {
    if out.failed() {
        return Err(OutputFailed);
    }
    let mut block = Block::new();
    block.push_message(out, parts)?;
    block.flush(out)
}

/// The parts of the line of a line in error.
fn fault_parts<'a>(file: &'a str, number: &'a str, message: &'a str) -> [MessagePart<'a>; 6] {
    let colon: &'a str = ":";
    let gap: &'a str = ": ";
    let end: &'a str = "\n";
    [
        MessagePart::Shown(file),
        MessagePart::Plain(colon),
        MessagePart::Plain(number),
        MessagePart::Plain(gap),
        MessagePart::Plain(message),
        MessagePart::Plain(end),
    ]
}

/// The parts of the line of a file that can't be read.
fn unread_parts<'a>(name: &'a str, why: &'a str) -> [MessagePart<'a>; 4] {
    let gap: &'a str = ": ";
    let end: &'a str = "\n";
    [
        MessagePart::Shown(name),
        MessagePart::Plain(gap),
        MessagePart::Plain(why),
        MessagePart::Plain(end),
    ]
}

/// What is told of a file that is not written.
fn unsaved_message(why: Unsaved) -> &'static str {
    match why {
        Unsaved::Full => ": cannot be written: no space left\n",
        Unsaved::Denied => ": cannot be written: permission denied\n",
        Unsaved::ReadOnly => ": cannot be written: read-only file system\n",
        Unsaved::NoDirectory => ": cannot be written: no such directory\n",
        Unsaved::Directory => ": cannot be written: is a directory\n",
        Unsaved::Same => ": the same file as TABLE\n",
        Unsaved::Unknown => ": cannot be written\n",
    }
}

/// What is told of a file of look-ups that is not written, or not read.
fn file_message(error: FileError) -> &'static str {
    match error {
        FileError::TooLarge => ": too large for a file of look-ups\n",
        FileError::NotSaved(why) => unsaved_message(why),
        FileError::Hole => ": a value is -, which with --holes stands for none\n",
        FileError::Unlike => ": no lines, and no file of look-ups\n",
        FileError::Old => {
            ": a file of look-ups of an older version, which an older netset made: compile the table anew\n"
        }
        FileError::Version => ": a file of look-ups of another version\n",
        FileError::Short => ": a file of look-ups that is cut short\n",
        FileError::Long => ": a file of look-ups with bytes behind its end\n",
        FileError::Changed => ": a file of look-ups that was changed\n",
    }
}

/// The parts of the line of a file of look-ups.
#[inline]
fn file_parts<'a>(name: &'a str, words: &'a str) -> [MessagePart<'a>; 2] {
    [MessagePart::Shown(name), MessagePart::Plain(words)]
}

/// Appends the line of a line in error to a block, as far as the sink takes lines.
#[inline]
pub fn say_fault<E: Sink>(
    block: &mut Block,
    err: &mut E,
    file: &str,
    number: u64,
    error: &LineError,
) {
    let digits = decimal_text(u128::from(number));
    let message = error.message();
    let parts = fault_parts(file, digits.as_str(), message.as_str());
    block.say_message(err, &parts);
}

/// Why a file is not read, as it is told.
#[inline]
fn reason_words(why: Reason) -> &'static str {
    match why {
        Reason::NotFound => "no such file",
        Reason::Denied => "permission denied",
        Reason::Directory => "is a directory",
        Reason::Unknown => "cannot be read",
    }
}

/// Writes the line of an error, as far as the sink takes it.
fn say<E: Sink>(error: &CommandError<'_>, err: &mut E) {
    let _ = match error {
        CommandError::Argument(text, e) => write_line(
            err,
            &[
                excerpt(text).as_str(),
                ": ",
                argument_message(e).as_str(),
                "\n",
            ],
        ),
        CommandError::Line(name, number, e) => write_message(
            err,
            &fault_parts(
                name,
                decimal_text(u128::from(*number)).as_str(),
                e.message().as_str(),
            ),
        ),
        CommandError::Input(name, why) => {
            write_message(err, &unread_parts(name, reason_words(*why)))
        }
        CommandError::NoMemory => write_line(err, &["no memory\n"]),
        CommandError::Output => write_line(err, &["output failed\n"]),
        CommandError::File(name, e) => write_message(err, &file_parts(name, file_message(*e))),
    };
}

/// Whether the error is that nobody reads the output any more.
#[inline]
fn is_closed_pipe(closed: bool, error: &CommandError<'_>) -> bool {
    match error {
        CommandError::Output => closed,
        _ => false,
    }
}

/// Writes the line of an error, as far as the sink takes it, unless it is to be silent.
#[inline]
fn say_unless<E: Sink>(silent: bool, error: &CommandError<'_>, err: &mut E) {
    if !silent {
        say(error, err);
    }
}

/// The exit status of an error.
#[inline]
fn status_of(error: &CommandError<'_>) -> u8 {
    match error {
        CommandError::Argument(_, _) | CommandError::Line(_, _, _) | CommandError::Input(_, _) => 2,
        CommandError::NoMemory | CommandError::Output => 3,
        CommandError::File(_, FileError::NotSaved(Unsaved::Same)) => 2,
        CommandError::File(_, FileError::NotSaved(_)) => 3,
        CommandError::File(_, _) => 2,
    }
}

/// Writes the line that belongs to an answer, if there is one, and returns the exit status whatever the sink does: 0
/// for an answer, 1 for none, no or findings, 2 for arguments, files and lines in error, 3 where the output failed, a
/// file can't be written, or there is no memory. An output that failed is told unless it is closed: nobody reads it any
/// more.
pub fn report<E: Sink>(answer: &Result<Verdict, CommandError<'_>>, closed: bool, err: &mut E) -> u8 {
    match answer {
        Ok(Verdict::Yes) => 0,
        Ok(Verdict::No) => 1,
        Err(error) => {
            say_unless(is_closed_pipe(closed, error), error, err);
            status_of(error)
        }
    }
}

/// What is wrong with a word.
fn misfit_text(why: Misfit) -> ArrayString<128> {
    let mut text = ArrayString::new();
    match why {
        Misfit::Unnamed => text.push_str(" is missing, see: netset help"),
        Misfit::NoCommand => text.push_str(": no such command, see: netset help"),
        Misfit::NoOption => text.push_str(": no such option, see: netset help "),
        Misfit::Missing => text.push_str(" is missing, see: netset help "),
        Misfit::Extra => text.push_str(": one argument too many, see: netset help "),
        Misfit::NoFormat => text.push_str(
            ": no such format, but plain, json, nft, ipset, iptables, cisco, juniper and bird, see: netset help ",
        ),
        Misfit::NoLineFormat => {
            text.push_str(": no such format, but plain and json, see: netset help ");
        }
        Misfit::NotPlain => text.push_str(": for the format plain alone, see: netset help "),
        Misfit::NoField => text.push_str(": only with --field, see: netset help "),
        Misfit::Anywhere => text.push_str(": not with --any, see: netset help "),
        Misfit::Skipping => text.push_str(": not with --skip-bad, see: netset help "),
        Misfit::WithShadowed => text.push_str(": not with --shadowed, see: netset help "),
        Misfit::WithDiff => text.push_str(": not with --diff, see: netset help "),
        Misfit::NoForm => text.push_str(
            ": no such form, but pfx2as, routes and routes6, see: netset help ",
        ),
        Misfit::NoListForm => {
            text.push_str(": no such form of lists, but rir, see: netset help ");
        }
        Misfit::NotOneByte => text.push_str(": more or less than one byte, see: netset help "),
        Misfit::NoFields => text.push_str(": not the numbers of two fields, see: netset help "),
        Misfit::WithForm => text.push_str(": not with --form, see: netset help "),
        Misfit::WithJson => text.push_str(": not with the format json, see: netset help "),
        Misfit::NoLength => text.push_str(": no prefix length inside the network"),
        Misfit::NoCount => text.push_str(": no count below 2^64"),
        Misfit::NoNumber => text.push_str(": no number of a field, from 1 on"),
        Misfit::NoByte => text.push_str(": more or less than one byte"),
    }
    text
}

/// Writes the line of arguments that are no command, as far as the sink takes it, and returns the exit status.
#[inline(never)]
pub fn report_misuse<E: Sink>(misuse: &Misuse<'_>, err: &mut E) -> u8 {
    let Misuse { word, why, command } = misuse;
    let _ = write_line(
        err,
        &[
            excerpt(word).as_str(),
            misfit_text(*why).as_str(),
            command,
            "\n",
        ],
    );
    2
}

/// Writes the line of an argument that is not UTF-8, by its beginning as it is shown, as far as the sink takes it, and
/// returns the exit status.
#[inline(never)]
pub fn report_not_text<E: Sink>(shown: &str, err: &mut E) -> u8 {
    let _ = write_line(err, &[shown, ": not UTF-8\n"]);
    2
}
