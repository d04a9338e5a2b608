//! The words of a command line as options and operands, and the command that they are.

use cidr_support::vec::Vec;
use crate::commands::acl::Question;
use crate::commands::free::length_of;
use crate::commands::matching::has;
use crate::commands::operations::Operation;
use crate::commands::picking::{Picking, picking_of, place_of, seeking_of};
use crate::commands::single::Single;
use crate::commands::table::{Verb, commands, name_of, options_of, row_of, takes_value};
use crate::commands::{Command, Reading, bits_of, reading_of};
use crate::errors::{Misfit, Misuse, UsageError};
use cidr::Family;
use cidr_io::memory::Memory;
use cidr_lists::columns::{Column, Separator};
use cidr_lists::formats::{Format, LineFormat, Style, format_of};
use cidr_lists::forms::{RowColumns, RowForm, RowLayout};
use cidr_lists::records::ListForm;
use cidr_support::alloc::Global;

/// What the next word behind a command is.
#[derive(Clone, Copy)]
pub enum Next {
    /// An option or an operand.
    Any,
    /// The value of the option before it.
    Value,
    /// An operand, as all words behind `--`.
    Operand,
}

/// The words behind a command.
pub struct Parts<'a> {
    /// The options without a value, each in its own word: `-v` and `-c` for `-vc`.
    pub options: Vec<&'a str>,
    /// The options with a value, each with its value behind it.
    pub values: Vec<&'a str>,
    pub operands: Vec<&'a str>,
}

/// The same, lent to what reads them.
#[derive(Clone, Copy)]
pub struct Given<'a> {
    pub options: &'a [&'a str],
    pub values: &'a [&'a str],
    pub operands: &'a [&'a str],
}

/// A line of arguments: how lists are read, the file that the answer is written to, if one is named, and the command.
#[derive(Clone, Copy)]
pub struct Line<'a> {
    pub reading: Reading,
    pub target: Option<&'a str>,
    pub command: Command<'a>,
}

/// Whether a word is an option, and no operand: `-` and something behind it.
#[inline]
fn is_option(word: &str) -> bool {
    let bytes = word.as_bytes();
    bytes.len() > 1 && bytes[0] == b'-'
}

/// Whether a word is the option of a letter.
#[inline]
fn is_short(word: &str, letter: u8) -> bool {
    word.as_bytes() == [b'-', letter].as_slice()
}

/// The option of a letter that a command has.
#[inline]
fn short_option(command: Verb, letter: u8) -> Option<&'static str> {
    let options = options_of(command);
    for option in options {
        if is_short(option, letter) {
            return Some(option);
        }
    }
    None
}

/// An option in front of `=` and the value behind it, where the option has one.
#[inline]
fn value_in<'a>(command: Verb, word: &'a str) -> Option<(&'a str, &'a str)> {
    let (name, value) = word.split_once('=')?;
    if takes_value(command, name) {
        Some((name, value))
    } else {
        None
    }
}

/// That this is wrong with a word, by the page of a command.
#[inline]
fn misused<'a>(command: Verb, why: Misfit, word: &'a str) -> Misuse<'a> {
    Misuse {
        word,
        why,
        command: name_of(command),
    }
}

/// The error of a word that is no option of the command.
#[inline]
fn no_option<'a>(command: Verb, word: &'a str) -> UsageError<'a> {
    UsageError::Misuse(misused(command, Misfit::NoOption, word))
}

/// Whether a word that is no option names a command, behind `help`.
#[inline]
fn is_topic(command: Verb, word: &str) -> bool {
    match command {
        Verb::Help => word == "--version",
        _ => false,
    }
}

impl<'a> Parts<'a> {
    /// Those of no words.
    #[inline]
    fn new(alloc: Global) -> Parts<'a> {
        Parts {
            options: Vec::new(alloc),
            values: Vec::new(alloc),
            operands: Vec::new(alloc),
        }
    }

    /// They, lent.
    #[inline]
    pub fn given(&self) -> Given<'_> {
        Given {
            options: self.options.as_slice(),
            values: self.values.as_slice(),
            operands: self.operands.as_slice(),
        }
    }

    /// Adds the options of a word of letters.
    fn add_letters<M: Memory>(
        &mut self,
        memory: &mut M,
        command: Verb,
        word: &'a str,
    ) -> Result<Next, UsageError<'a>> {
        let letters = &word.as_bytes()[1..];
        for letter in letters {
            let Some(option) = short_option(command, *letter) else {
                return Err(no_option(command, word));
            };
            memory.push(&mut self.options, option)?;
        }
        Ok(Next::Any)
    }

    /// Adds a word that begins with `--` and is no option: behind `help` it may be an operand.
    #[inline]
    fn add_topic<M: Memory>(
        &mut self,
        memory: &mut M,
        command: Verb,
        word: &'a str,
    ) -> Result<Next, UsageError<'a>> {
        if !is_topic(command, word) {
            return Err(no_option(command, word));
        }
        memory.push(&mut self.operands, word)?;
        Ok(Next::Any)
    }

    /// Adds a word that begins with `--`: an option, perhaps with its value.
    fn add_long<M: Memory>(
        &mut self,
        memory: &mut M,
        command: Verb,
        word: &'a str,
    ) -> Result<Next, UsageError<'a>> {
        if has(options_of(command), word) {
            memory.push(&mut self.options, word)?;
            return Ok(Next::Any);
        }
        if takes_value(command, word) {
            memory.push(&mut self.values, word)?;
            return Ok(Next::Value);
        }
        match value_in(command, word) {
            Some((name, value)) => {
                memory.push(&mut self.values, name)?;
                memory.push(&mut self.values, value)?;
                Ok(Next::Any)
            }
            None => self.add_topic(memory, command, word),
        }
    }

    /// Adds a word that begins with one `-`: an option before its value, or options of letters.
    #[inline]
    fn add_short<M: Memory>(
        &mut self,
        memory: &mut M,
        command: Verb,
        word: &'a str,
    ) -> Result<Next, UsageError<'a>> {
        if takes_value(command, word) {
            memory.push(&mut self.values, word)?;
            return Ok(Next::Value);
        }
        self.add_letters(memory, command, word)
    }

    /// Adds an option or an operand, and tells what the next word is.
    fn add_any<M: Memory>(
        &mut self,
        memory: &mut M,
        command: Verb,
        word: &'a str,
    ) -> Result<Next, UsageError<'a>> {
        if word == "--" {
            return Ok(Next::Operand);
        }
        if !is_option(word) {
            memory.push(&mut self.operands, word)?;
            return Ok(Next::Any);
        }
        if word.as_bytes().starts_with(b"--") {
            return self.add_long(memory, command, word);
        }
        self.add_short(memory, command, word)
    }

    /// Adds a word, and tells what the next one is.
    fn add<M: Memory>(
        &mut self,
        memory: &mut M,
        command: Verb,
        next: Next,
        word: &'a str,
    ) -> Result<Next, UsageError<'a>> {
        match next {
            Next::Any => self.add_any(memory, command, word),
            Next::Value => {
                memory.push(&mut self.values, word)?;
                Ok(Next::Any)
            }
            Next::Operand => {
                memory.push(&mut self.operands, word)?;
                Ok(Next::Operand)
            }
        }
    }
}

/// The parts of the words behind a command.
fn parts_of<'a, M: Memory>(
    memory: &mut M,
    command: Verb,
    words: &[&'a str],
) -> Result<Parts<'a>, UsageError<'a>> {
    let mut parts = Parts::new(memory.alloc());
    let mut next = Next::Any;
    for word in words {
        next = parts.add(memory, command, next, word)?;
    }
    match next {
        Next::Any => Ok(parts),
        Next::Operand => Ok(parts),
        Next::Value => Err(UsageError::Misuse(misused(command, Misfit::Missing, "VALUE"))),
    }
}

/// The name of a command: `-h` and `--help` are other names of `help`, and `nets` of `merge`.
#[inline]
fn full_name(word: &str) -> &str {
    if word == "-h" || word == "--help" {
        "help"
    } else if word == "nets" {
        "merge"
    } else {
        word
    }
}

/// The command of a name.
#[inline]
fn verb_of(word: &str) -> Option<Verb> {
    let name = full_name(word);
    commands()
        .iter()
        .find(|command| name_of(**command) == name)
        .copied()
}

/// The same, or that there is none.
fn named_verb<'a>(word: &'a str) -> Result<Verb, Misuse<'a>> {
    match verb_of(word) {
        Some(command) => Ok(command),
        None => Err(Misuse {
            word,
            why: Misfit::NoCommand,
            command: "",
        }),
    }
}

/// The command, and the parts of the words behind it.
pub fn line_parts<'a, M: Memory>(
    memory: &mut M,
    words: &[&'a str],
) -> Result<(Verb, Parts<'a>), UsageError<'a>> {
    let Some((name, words)) = words.split_first() else {
        return Err(UsageError::Misuse(Misuse {
            word: "COMMAND",
            why: Misfit::Unnamed,
            command: "",
        }));
    };
    match named_verb(name) {
        Ok(command) => {
            let parts = parts_of(memory, command, words)?;
            Ok((command, parts))
        }
        Err(misuse) => Err(UsageError::Misuse(misuse)),
    }
}

/// The operand at an index, counted from 0, or what stands for it.
#[inline]
fn operand_or<'a>(operands: &[&'a str], index: usize, otherwise: &'a str) -> &'a str {
    match operands.get(index) {
        Some(operand) => operand,
        None => otherwise,
    }
}

/// The operands from an index on, counted from 0.
#[inline]
pub fn operands_from<'a>(operands: &'a [&'a str], index: usize) -> &'a [&'a str] {
    if index < operands.len() {
        &operands[index..]
    } else {
        &[]
    }
}

/// A value of an option, if it has none yet.
#[inline]
fn fresh<'a>(
    command: Verb,
    found: Option<&'a str>,
    value: &'a str,
) -> Result<Option<&'a str>, Misuse<'a>> {
    match found {
        None => Ok(Some(value)),
        Some(_) => Err(misused(command, Misfit::Extra, value)),
    }
}

/// The same of an option with its value, if it is the one of this name.
#[inline]
fn taken_value<'a>(
    command: Verb,
    name: &str,
    found: Option<&'a str>,
    option: &str,
    value: &'a str,
) -> Result<Option<&'a str>, Misuse<'a>> {
    if option == name {
        return fresh(command, found, value);
    }
    Ok(found)
}

/// The value of an option, if it is given: the error is that it is given twice.
#[inline]
fn option_value<'a>(
    command: Verb,
    name: &str,
    values: &[&'a str],
) -> Result<Option<&'a str>, Misuse<'a>> {
    let mut found = None;
    let mut at = 0;
    while values.len() - at > 1 {
        found = taken_value(command, name, found, values[at], values[at + 1])?;
        at += 2;
    }
    Ok(found)
}

/// The format of a name.
#[inline]
fn named_format<'a>(command: Verb, name: &'a str) -> Result<Format, Misuse<'a>> {
    match format_of(name) {
        Some(format) => Ok(format),
        None => Err(misused(command, Misfit::NoFormat, name)),
    }
}

/// Whether a format has a prefix and a suffix.
#[inline]
fn is_plain(format: Format) -> bool {
    format == Format::Plain
}

/// A value that is given, or nothing.
#[inline]
fn text_or<'a>(found: Option<&'a str>) -> &'a str {
    match found {
        Some(text) => text,
        None => "",
    }
}

/// A format with a prefix and a suffix, which only the plain one has.
fn style_of<'a>(
    command: Verb,
    format: Format,
    prefix: Option<&'a str>,
    suffix: Option<&'a str>,
) -> Result<Style<'a>, Misuse<'a>> {
    if is_plain(format) {
        return Ok(Style {
            format,
            prefix: text_or(prefix),
            suffix: text_or(suffix),
        });
    }
    match (prefix, suffix) {
        (Some(_), _) => Err(misused(command, Misfit::NotPlain, "--prefix")),
        (None, Some(_)) => Err(misused(command, Misfit::NotPlain, "--suffix")),
        (None, None) => Ok(Style {
            format,
            prefix: "",
            suffix: "",
        }),
    }
}

/// A format with a prefix and a suffix, as one that is chosen.
#[inline]
fn some_style<'a>(
    command: Verb,
    format: Format,
    prefix: Option<&'a str>,
    suffix: Option<&'a str>,
) -> Result<Option<Style<'a>>, Misuse<'a>> {
    let style = style_of(command, format, prefix, suffix)?;
    Ok(Some(style))
}

/// How networks are written, if one of the options with a value says it.
fn style_in_values<'a>(command: Verb, values: &[&'a str]) -> Result<Option<Style<'a>>, Misuse<'a>> {
    let name = option_value(command, "--format", values)?;
    let prefix = option_value(command, "--prefix", values)?;
    let suffix = option_value(command, "--suffix", values)?;
    match (name, prefix, suffix) {
        (None, None, None) => Ok(None),
        (None, None, Some(_)) => some_style(command, Format::Plain, prefix, suffix),
        (None, Some(_), _) => some_style(command, Format::Plain, prefix, suffix),
        (Some(name), _, _) => {
            let format = named_format(command, name)?;
            some_style(command, format, prefix, suffix)
        }
    }
}

/// How lines are written: as text, unless an option with a value says otherwise.
fn line_format_in<'a>(command: Verb, values: &[&'a str]) -> Result<LineFormat, Misuse<'a>> {
    match option_value(command, "--format", values)? {
        None => Ok(LineFormat::Plain),
        Some(name) => {
            if name == "plain" {
                return Ok(LineFormat::Plain);
            }
            if name == "json" {
                return Ok(LineFormat::Json);
            }
            Err(misused(command, Misfit::NoLineFormat, name))
        }
    }
}

/// The command of an operation on lists; `not` may be inside a network.
#[inline]
fn made_command<'a>(
    operation: Operation,
    net: Option<&'a str>,
    style: Option<Style<'a>>,
    files: &'a [&'a str],
) -> Command<'a> {
    match (net, style) {
        (None, None) => Command::Lists(operation, files),
        (None, Some(style)) => Command::Styled(style, operation, files),
        (Some(net), style) => Command::NotIn(style, net, files),
    }
}

/// The prefix length that an argument is.
fn length_by<'a>(text: &'a str) -> Result<u8, Misuse<'a>> {
    match length_of(text) {
        Some(len) => Ok(len),
        None => Err(Misuse {
            word: text,
            why: Misfit::NoLength,
            command: "",
        }),
    }
}

/// The number below 2^64 that an argument is.
#[inline]
fn count_of(text: &str) -> Option<u64> {
    match text.parse() {
        Ok(count) => Some(count),
        Err(_) => None,
    }
}

/// The same as the value of an option.
fn count_by<'a>(text: &'a str) -> Result<u64, Misuse<'a>> {
    match count_of(text) {
        Some(count) => Ok(count),
        None => Err(Misuse {
            word: text,
            why: Misfit::NoCount,
            command: "",
        }),
    }
}

/// How many networks `free` is to tell at most, by whether `--all` is given and by the value of `--count`; `None` for all.
fn most_by<'a>(all: bool, count: Option<&'a str>) -> Result<Option<u64>, Misuse<'a>> {
    match (all, count) {
        (false, None) => Ok(Some(1)),
        (true, None) => Ok(None),
        (false, Some(text)) => {
            let count = count_by(text)?;
            Ok(Some(count))
        }
        (true, Some(_)) => Err(misused(Verb::Free, Misfit::Extra, "--all")),
    }
}

/// That an option with a value is not given: it does not go with another one of `acl`.
#[inline]
fn without_value<'a>(
    option: &'static str,
    why: Misfit,
    values: &[&'a str],
) -> Result<(), Misuse<'a>> {
    match option_value(Verb::Acl, option, values)? {
        None => Ok(()),
        Some(_) => Err(misused(Verb::Acl, why, option)),
    }
}

/// What is asked of an access list, by whether `--shadowed` is given and by the value of `--diff`: which addresses are
/// permitted, in a style; the rules that no address reaches, which have no style; or what it permits and the list of another
/// file does not, whose lines have a format.
fn question_by<'a>(
    shadowed: bool,
    old: Option<&'a str>,
    values: &[&'a str],
) -> Result<Question<'a>, Misuse<'a>> {
    match (shadowed, old) {
        (false, None) => {
            let style = style_in_values(Verb::Acl, values)?;
            Ok(Question::Permitted(style))
        }
        (true, None) => {
            without_value("--format", Misfit::WithShadowed, values)?;
            without_value("--prefix", Misfit::WithShadowed, values)?;
            without_value("--suffix", Misfit::WithShadowed, values)?;
            Ok(Question::Shadowed)
        }
        (false, Some(old)) => {
            let format = line_format_in(Verb::Acl, values)?;
            without_value("--prefix", Misfit::WithDiff, values)?;
            without_value("--suffix", Misfit::WithDiff, values)?;
            Ok(Question::Compared(format, old))
        }
        (true, Some(_)) => Err(misused(Verb::Acl, Misfit::Extra, "--shadowed")),
    }
}

/// The command `help`, of the command that an operand names, or of all.
#[inline]
fn help_command<'a>(operands: &[&'a str]) -> Result<Command<'a>, Misuse<'a>> {
    match operands.first() {
        None => Ok(Command::Help(None)),
        Some(word) => {
            let command = named_verb(word)?;
            Ok(Command::Help(Some(command)))
        }
    }
}

/// The field of a number, and what parts it from others.
fn column_by<'a>(number: &'a str, separator: Option<&'a str>) -> Result<Column, Misuse<'a>> {
    match place_by(number) {
        Some(place) => {
            let separator = separator_by(Misfit::NoByte, "", separator)?;
            Ok(Column { place, separator })
        }
        None => Err(Misuse {
            word: number,
            why: Misfit::NoNumber,
            command: "",
        }),
    }
}

/// The field that is read of each line, if one is told: by the value of `--field`, whether `--any` is given, and the value
/// of `--separator`.
fn field_in<'a>(command: Verb, parts: Given<'a>) -> Result<Option<Column>, Misuse<'a>> {
    let number = option_value(command, "--field", parts.values)?;
    let separator = option_value(command, "--separator", parts.values)?;
    match (number, has(parts.options, "--any"), separator) {
        (None, _, None) => Ok(None),
        (None, _, Some(_)) => Err(misused(command, Misfit::NoField, "--separator")),
        (Some(number), false, separator) => {
            let column = column_by(number, separator)?;
            Ok(Some(column))
        }
        (Some(_), true, _) => Err(misused(command, Misfit::Anywhere, "--field")),
    }
}

/// The command `match`, of several files where there is a third operand, and else of one or of the standard input.
fn match_by<'a>(picking: Picking, operands: &'a [&'a str]) -> Command<'a> {
    match operands.get(2) {
        None => Command::Match(
            picking,
            operand_or(operands, 0, ""),
            operand_or(operands, 1, "-"),
        ),
        Some(_) => Command::MatchEach(
            picking,
            operand_or(operands, 0, ""),
            operands_from(operands, 1),
        ),
    }
}

/// The layout of the rows of tables in a form of this name.
fn named_layout<'a>(command: Verb, name: &'a str) -> Result<RowLayout, Misuse<'a>> {
    if name == "pfx2as" {
        return Ok(RowLayout::Pfx2as);
    }
    if name == "routes" {
        return Ok(RowLayout::Routes(Family::Ipv4));
    }
    if name == "routes6" {
        return Ok(RowLayout::Routes(Family::Ipv6));
    }
    Err(misused(command, Misfit::NoForm, name))
}

/// The form of lists of a name, with which go no options that tell how networks are read.
fn named_list_form<'a>(
    command: Verb,
    options: &[&'a str],
    name: &'a str,
) -> Result<ListForm, Misuse<'a>> {
    if name != "rir" {
        return Err(misused(command, Misfit::NoListForm, name));
    }
    if has(options, "--host-bits") {
        return Err(misused(command, Misfit::WithForm, "--host-bits"));
    }
    if has(options, "--masks") {
        return Err(misused(command, Misfit::WithForm, "--masks"));
    }
    Ok(ListForm::Rir)
}

/// The form of the lists that a command reads.
fn list_form_in<'a>(command: Verb, parts: Given<'a>) -> Result<ListForm, Misuse<'a>> {
    let options = parts.options;
    if asks_help(options) || takes_value(command, "--table-separator") {
        return Ok(ListForm::Networks(bits_of(options)));
    }
    match option_value(command, "--form", parts.values)? {
        Some(name) => named_list_form(command, options, name),
        None => Ok(ListForm::Networks(bits_of(options))),
    }
}

/// How a command reads lists.
#[inline]
fn reading_in<'a>(command: Verb, parts: Given<'a>) -> Result<Reading, Misuse<'a>> {
    let form = list_form_in(command, parts)?;
    Ok(reading_of(form, parts.options))
}

/// What parts the fields of lines, or what is told where it is not one byte.
fn separator_by<'a>(
    why: Misfit,
    command: &'static str,
    separator: Option<&'a str>,
) -> Result<Separator, Misuse<'a>> {
    let Some(text) = separator else {
        return Ok(Separator::WhiteSpace);
    };
    match text.as_bytes() {
        [byte] => Ok(Separator::Byte(*byte)),
        _ => Err(Misuse {
            word: text,
            why,
            command,
        }),
    }
}

/// The numbers of two fields with a comma between them.
#[inline]
fn split_numbers(numbers: &str) -> (&str, &str) {
    match numbers.split_once(',') {
        Some(parts) => parts,
        None => (numbers, ""),
    }
}

/// The index, counted from 0, of the field of a number.
#[inline]
fn place_by(number: &str) -> Option<u64> {
    place_of(number)
}

/// The layout of rows of fields, of which two may be told by their numbers.
fn fields_by<'a>(
    command: Verb,
    separator: Separator,
    numbers: Option<&'a str>,
) -> Result<RowLayout, Misuse<'a>> {
    let Some(numbers) = numbers else {
        return Ok(RowLayout::Fields(separator));
    };
    let (network, value) = split_numbers(numbers);
    match (place_by(network), place_by(value)) {
        (Some(network), Some(value)) => Ok(RowLayout::Columns(RowColumns {
            separator,
            network,
            value,
        })),
        _ => Err(misused(command, Misfit::NoFields, numbers)),
    }
}

/// How the rows of a table are laid out, by the values of `--form`, `--table-separator` and `--table-fields`: the first goes
/// with none of the others.
fn layout_by<'a>(
    command: Verb,
    name: Option<&'a str>,
    separator: Option<&'a str>,
    numbers: Option<&'a str>,
) -> Result<RowLayout, Misuse<'a>> {
    match (name, separator, numbers) {
        (Some(name), None, None) => named_layout(command, name),
        (Some(_), Some(_), _) => Err(misused(command, Misfit::WithForm, "--table-separator")),
        (Some(_), None, Some(_)) => Err(misused(command, Misfit::WithForm, "--table-fields")),
        (None, separator, numbers) => {
            let separator = separator_by(Misfit::NotOneByte, name_of(command), separator)?;
            fields_by(command, separator, numbers)
        }
    }
}

/// How the rows of a table are read, whose values are told in the format that is asked for.
fn form_in<'a>(command: Verb, values: &[&'a str]) -> Result<RowForm, Misuse<'a>> {
    let name = option_value(command, "--form", values)?;
    let separator = option_value(command, "--table-separator", values)?;
    let numbers = option_value(command, "--table-fields", values)?;
    let layout = layout_by(command, name, separator, numbers)?;
    let format = line_format_in(command, values)?;
    Ok(RowForm {
        layout,
        values: format,
    })
}

/// Whether lines may be kept, if they are: in text alone.
#[inline]
fn may_keep<'a>(format: LineFormat, keeps: bool) -> Result<(), Misuse<'a>> {
    match (format, keeps) {
        (LineFormat::Plain, _) | (LineFormat::Json, false) => Ok(()),
        (LineFormat::Json, true) => Err(misused(Verb::Look, Misfit::WithJson, "--keep")),
    }
}

/// The command with as many operands as it takes.
fn verb_command<'a>(verb: Verb, parts: Given<'a>) -> Result<Command<'a>, Misuse<'a>> {
    let Given {
        options,
        values,
        operands,
    } = parts;
    let first = operand_or(operands, 0, "");
    let second = operand_or(operands, 1, "");
    match verb {
        Verb::Lists(operation) => {
            let verb = Verb::Lists(operation);
            let net = option_value(verb, "--in", values)?;
            let style = style_in_values(verb, values)?;
            Ok(made_command(operation, net, style, operands))
        }
        Verb::Diff => {
            let format = line_format_in(Verb::Diff, values)?;
            Ok(Command::Diff(format, first, second))
        }
        Verb::Same => {
            let form = form_in(Verb::Same, values)?;
            Ok(Command::Same(form, first, second))
        }
        Verb::Free => {
            let len = length_by(second)?;
            let count = option_value(Verb::Free, "--count", values)?;
            let most = most_by(has(options, "--all"), count)?;
            let style = style_in_values(Verb::Free, values)?;
            Ok(Command::Free(style, most, first, len, operands_from(operands, 2)))
        }
        Verb::Acl => {
            let old = option_value(Verb::Acl, "--diff", values)?;
            let asked = question_by(has(options, "--shadowed"), old, values)?;
            Ok(Command::Acl(asked, first))
        }
        Verb::Check => Ok(Command::Check(operands)),
        Verb::Which => Ok(Command::Which(first, operands_from(operands, 1))),
        Verb::Match => {
            let column = field_in(Verb::Match, parts)?;
            Ok(match_by(picking_of(options, column), operands))
        }
        Verb::Look => {
            let column = field_in(Verb::Look, parts)?;
            let form = form_in(Verb::Look, values)?;
            may_keep(form.values, has(options, "--keep"))?;
            let seeking = seeking_of(options, column, form);
            Ok(Command::Look(seeking, first, operand_or(operands, 1, "-")))
        }
        Verb::Compile => {
            let form = form_in(Verb::Compile, values)?;
            Ok(Command::Compile(form, first, second))
        }
        Verb::Smallest => {
            let form = form_in(Verb::Smallest, values)?;
            Ok(Command::Smallest(has(options, "--holes"), form, first))
        }
        Verb::Describe(what) => Ok(Command::Describe(what, first)),
        Verb::Class => Ok(Command::Class(first)),
        Verb::Show => Ok(Command::Single(Single::Show(first))),
        Verb::Split => {
            let style = style_in_values(Verb::Split, values)?;
            let len = length_by(second)?;
            Ok(Command::Split(style, first, second, len))
        }
        Verb::Nth => Ok(Command::Single(Single::Nth(first, second))),
        Verb::Help => help_command(operands),
        Verb::Version => Ok(Command::Version),
    }
}

/// Whether the page of a command is asked for.
#[inline]
fn asks_help(options: &[&str]) -> bool {
    has(options, "-h") || has(options, "--help")
}

/// The name of the first operand that is missing.
#[inline]
fn missing_operand(command: Verb, operands: &[&str]) -> Option<&'static str> {
    row_of(command).needed.get(operands.len()).copied()
}

/// The first operand that is too many.
#[inline]
fn extra_operand<'a>(command: Verb, operands: &[&'a str]) -> Option<&'a str> {
    let most = row_of(command).most?;
    operands.get(most).copied()
}

/// The command that the parts of a line are.
fn command_of<'a>(command: Verb, parts: Given<'a>) -> Result<Command<'a>, Misuse<'a>> {
    if asks_help(parts.options) {
        return Ok(Command::Help(Some(command)));
    }
    if let Some(name) = missing_operand(command, parts.operands) {
        return Err(misused(command, Misfit::Missing, name));
    }
    if let Some(word) = extra_operand(command, parts.operands) {
        return Err(misused(command, Misfit::Extra, word));
    }
    verb_command(command, parts)
}

/// The file that the answer is written to, if one is named: none goes with `--skip-bad`, nor does `-k`. The page of a command
/// is written to the standard output.
fn target_of<'a>(command: Verb, parts: Given<'a>) -> Result<Option<&'a str>, Misuse<'a>> {
    if asks_help(parts.options) {
        return Ok(None);
    }
    let target = option_value(command, "-o", parts.values)?;
    let keeps = has(parts.options, "-k");
    match (keeps, has(parts.options, "--skip-bad"), target) {
        (_, false, _) => Ok(target),
        (true, true, _) => Err(misused(command, Misfit::Skipping, "-k")),
        (false, true, Some(_)) => Err(misused(command, Misfit::Skipping, "-o")),
        (false, true, None) => Ok(None),
    }
}

/// The line of a command and its parts.
pub fn line_of<'a>(command: Verb, parts: Given<'a>) -> Result<Line<'a>, Misuse<'a>> {
    let made = command_of(command, parts)?;
    let target = target_of(command, parts)?;
    let reading = reading_in(command, parts)?;
    Ok(Line {
        reading,
        target,
        command: made,
    })
}
