//! The networks of a prefix length inside a network, or inside the networks of a list.

use crate::commands::free::{tell_free, write_inside};
use crate::errors::{ArgumentError, CommandError};
use crate::input::files::Sources;
use crate::input::operands::read_listed;
use crate::output::answers::{Verdict, by_output};
use cidr::IpCidr;
use cidr_io::memory::Memory;
use cidr_io::sink::{OutputFailed, Sink};
use cidr_lists::formats::Style;

/// Whether there is no network of prefix length `len` inside a network.
#[inline]
fn has_none(network: &IpCidr, len: u8) -> bool {
    len < network.network_length() || network.family().len() < len
}

/// Writes the networks of a prefix length inside a network, and flushes. An output that has failed before gets nothing.
#[inline]
fn write_subnets<S: Sink>(
    out: &mut S,
    style: Option<Style<'_>>,
    network: &IpCidr,
    len: u8,
) -> Result<(), OutputFailed> {
    match network {
        IpCidr::V4(network) => write_inside(out, style, &[*network], &[], len, None),
        IpCidr::V6(network) => write_inside(out, style, &[], &[*network], len, None),
    }
}

/// The networks inside a network.
#[inline]
fn split_network<'a, S: Sink>(
    style: Option<Style<'_>>,
    network: &IpCidr,
    word: &'a str,
    len: u8,
    out: &mut S,
) -> Result<Verdict, CommandError<'a>> {
    if has_none(network, len) {
        return Err(CommandError::Argument(word, ArgumentError::Length));
    }
    by_output(Verdict::Yes, write_subnets(out, style, network, len))
}

/// The networks inside those of the list of a file.
#[inline]
fn split_list<'a, M: Memory, F: Sources, O: Sink>(
    memory: &mut M,
    sources: &F,
    style: Option<Style<'_>>,
    file: &'a str,
    len: u8,
    out: &mut O,
) -> Result<Verdict, CommandError<'a>> {
    let sets = read_listed(memory, sources, file)?;
    tell_free(style, &sets, len, None, out)
}

/// The command `split`, of a prefix length with the word that it is told in.
#[inline]
pub fn split<'a, M: Memory, F: Sources, O: Sink>(
    memory: &mut M,
    sources: &F,
    style: Option<Style<'_>>,
    operand: &'a str,
    word: &'a str,
    len: u8,
    out: &mut O,
) -> Result<Verdict, CommandError<'a>> {
    match operand.parse::<IpCidr>() {
        Ok(network) => split_network(style, &network, word, len, out),
        Err(_) => split_list(memory, sources, style, operand, len, out),
    }
}
