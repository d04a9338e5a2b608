//! The arguments of the program as commands.

use crate::walks::Ends;

/// A command and its arguments.
pub enum Command<'a> {
    /// What there is to say of a network.
    Show(&'a str),
    /// Whether a network holds an address.
    Holds(&'a str, &'a str),
    /// How two networks are ordered.
    Compare(&'a str, &'a str),
    /// What calls at ends of the walk over a network's addresses give.
    Walk(&'a str, Ends),
    /// The compact bytes of a network.
    Bytes(&'a str),
    /// The address that a loose string is parsed as.
    Loose(&'a str),
}

/// The command of this name with one argument.
fn with_one<'a>(name: &str, argument: &'a str) -> Option<Command<'a>> {
    if name == "show" {
        return Some(Command::Show(argument));
    }
    if name == "bytes" {
        return Some(Command::Bytes(argument));
    }
    if name == "loose" {
        return Some(Command::Loose(argument));
    }
    None
}

/// The command of this name with two arguments.
fn with_two<'a>(name: &str, first: &'a str, second: &'a str) -> Option<Command<'a>> {
    if name == "in" {
        return Some(Command::Holds(first, second));
    }
    if name == "cmp" {
        return Some(Command::Compare(first, second));
    }
    if name == "walk" {
        return Some(Command::Walk(first, Ends::named_by(second)?));
    }
    None
}

/// The command that the arguments are.
#[inline]
pub fn command_of<'a>(arguments: &[&'a str]) -> Option<Command<'a>> {
    match arguments {
        [name, argument] => with_one(name, argument),
        [name, first, second] => with_two(name, first, second),
        _ => None,
    }
}
