//! Why a list can't be read, and why a command gave no answer.

use cidr::errors::NetworkParseError;
use cidr_io::lines;
use cidr_lists::errors::LineError;
use cidr_lists::wrong::Wrong;
use cidr_support::alloc::AllocError;

/// Why a list can't be read.
pub enum ListReadError {
    /// The first line in error, counted from 1.
    Line(u64, LineError),
    /// The file or the standard input can't be read.
    Input,
    /// There is no memory for its networks.
    NoMemory,
}

/// Why a file can't be read, as far as the system tells it.
#[derive(Clone, Copy)]
pub enum Reason {
    /// There is no file of this name.
    NotFound,
    /// The file may not be read.
    Denied,
    /// It is a directory.
    Directory,
    /// Anything else, as a read that failed.
    Unknown,
}

/// What is wrong with a word of the arguments.
#[derive(Clone, Copy)]
pub enum Misfit {
    /// It stands for the command, which is missing.
    Unnamed,
    /// There is no command of this name.
    NoCommand,
    /// The command has no such option.
    NoOption,
    /// It is the name of an operand or of a value that is missing.
    Missing,
    /// The command takes fewer operands or values.
    Extra,
    /// There is no format of this name.
    NoFormat,
    /// There is no format of lines of this name.
    NoLineFormat,
    /// It is an option for the format `plain` alone.
    NotPlain,
    /// It is an option that only goes with `--field`.
    NoField,
    /// It is an option that does not go with `--any`.
    Anywhere,
    /// It is an option that does not go with `--skip-bad`.
    Skipping,
    /// It is an option that does not go with `--shadowed`.
    WithShadowed,
    /// It is an option that does not go with `--diff`.
    WithDiff,
    /// There is no form of tables of this name.
    NoForm,
    /// There is no form of lists of this name.
    NoListForm,
    /// It is to part fields, and not one byte.
    NotOneByte,
    /// It is to be the numbers of two fields with a comma between them.
    NoFields,
    /// It is an option that does not go with `--form`.
    WithForm,
    /// It is an option that does not go with the format `json`.
    WithJson,
    /// It is no prefix length.
    NoLength,
    /// It is no number below 2^64.
    NoCount,
    /// It is no number of a field, from 1 on and below 2^64.
    NoNumber,
    /// It is to part the fields of lines, and not one byte.
    NoByte,
}

/// Why the arguments are no command.
#[derive(Clone, Copy)]
pub struct Misuse<'a> {
    /// The first word that is wrong, or the name of what is missing.
    pub word: &'a str,
    /// What is wrong with it.
    pub why: Misfit,
    /// The name of the command whose page is to be seen, or nothing.
    pub command: &'a str,
}

/// Why there is no command to answer.
pub enum UsageError<'a> {
    /// The arguments are none.
    Misuse(Misuse<'a>),
    /// There is no memory for them.
    NoMemory,
}

impl From<AllocError> for UsageError<'_> {
    #[inline]
    fn from(_error: AllocError) -> Self {
        UsageError::NoMemory
    }
}

/// Why an argument is wrong.
pub enum ArgumentError {
    /// It is no network or no host: what is wrong with it, if that can be told, and the error of parsing it.
    Network(Option<Wrong>, NetworkParseError),
    /// It is no prefix length of networks inside the network.
    Length,
    /// It is no network and no address, and no file of this name can be read.
    Operand,
    /// It is no address.
    NoAddress,
    /// It is no address, and no file of this name can be read.
    AddressOrFile,
    /// It is no index below 2^128.
    Index,
    /// It is the standard input, which is read already.
    ReadTwice,
}

/// Why a file is not written, as far as the system tells it.
#[derive(Clone, Copy)]
pub enum Unsaved {
    /// There is no room for it.
    Full,
    /// It may not be written.
    Denied,
    /// Nothing is written in its file system.
    ReadOnly,
    /// There is no directory for it.
    NoDirectory,
    /// It is a directory.
    Directory,
    /// It is the table that is read.
    Same,
    /// Anything else, as that it is a device, or a link that leads nowhere.
    Unknown,
}

/// Why a file is not written, or one of look-ups not read, or its table not told.
#[derive(Clone, Copy)]
pub enum FileError {
    /// The table has 2^31 networks of a family or more, values of 2^32 bytes or more, or look-ups of 2^30 words or more.
    TooLarge,
    /// The file is not written; if there was one, it is left as it was.
    NotSaved(Unsaved),
    /// A value of the table is `-`, which is written where addresses have none.
    Hole,
    /// It has the first byte of a file of look-ups, with which no line begins, and not the others of its first word.
    Unlike,
    /// It is of version 1 to 4, which earlier releases wrote.
    Old,
    /// It is of another version that is not read, such as a newer one.
    Version,
    /// It is shorter than its header says.
    Short,
    /// It is longer than its header says.
    Long,
    /// A table in it is none, as where bytes were changed.
    Changed,
}

/// Why a command gave no answer. But for a failed output nothing was written, or, by those that answer line by line, as
/// `match`, `look` and `class` do, what belongs to the lines before.
pub enum CommandError<'a> {
    /// The first argument that is wrong, and why.
    Argument(&'a str, ArgumentError),
    /// The first line in error of this file, from 1 on.
    Line(&'a str, u64, LineError),
    /// This file can't be read, and why.
    Input(&'a str, Reason),
    /// There is no memory.
    NoMemory,
    /// The output has failed; a beginning of the answer was written.
    Output,
    /// No file is written, since the table of this name doesn't fit in one of look-ups, or the file of this name can't be
    /// written; or the file of this name begins as one of look-ups and is none, or has a value that is no value.
    File(&'a str, FileError),
}

impl From<AllocError> for CommandError<'_> {
    #[inline]
    fn from(_error: AllocError) -> Self {
        CommandError::NoMemory
    }
}

impl From<lines::LineReadError> for ListReadError {
    #[inline]
    fn from(error: lines::LineReadError) -> ListReadError {
        match error {
            lines::LineReadError::Failed => ListReadError::Input,
            lines::LineReadError::NoMemory => ListReadError::NoMemory,
        }
    }
}

impl From<AllocError> for ListReadError {
    #[inline]
    fn from(_error: AllocError) -> ListReadError {
        ListReadError::NoMemory
    }
}
