//! What is told of each network: the names of its zones in reverse DNS, or its masks.

use crate::commands::free::length_of;
use crate::errors::CommandError;
use crate::input::files::Sources;
use crate::input::operands::read_operand;
use crate::output::answers::{Verdict, by_output};
use crate::output::report::write_line;
use cidr::{FamilyCidr, IpAddr, IpCidr};
use cidr_ext::CidrReverseName;
use cidr_io::block::Block;
use cidr_io::decimal::decimal_text;
use cidr_io::memory::Memory;
use cidr_io::sink::{OutputFailed, Sink};
use cidr_io::writing::{flush, write_text};
use cidr_lists::descriptions::{length_lines, length_of_mask, mask_line};
use cidr_lists::sets::Sets;

/// What is told of a network.
#[derive(Clone, Copy)]
pub enum Description {
    /// The names of its zones in reverse DNS.
    Zones,
    /// Its first address, its mask and its host mask.
    Masks,
}

/// Appends the names of the zones of a network to a block, a line each.
#[inline]
fn push_zones<S: Sink>(block: &mut Block, out: &mut S, network: &IpCidr) -> Result<(), OutputFailed> {
    let mut zones = network.reverse_zones();
    while let Some(name) = zones.next() {
        block.push_line(out, &[name.as_str().as_bytes(), b"\n"])?;
    }
    Ok(())
}

/// Appends the first address, the mask and the host mask of a network to a block, as a line.
#[inline]
fn push_masks<S: Sink>(block: &mut Block, out: &mut S, network: &IpCidr) -> Result<(), OutputFailed> {
    block.push(out, mask_line(network).as_str().as_bytes())
}

/// Appends what is told of a network to a block.
#[inline]
fn push_told<S: Sink>(
    block: &mut Block,
    out: &mut S,
    what: Description,
    network: &IpCidr,
) -> Result<(), OutputFailed> {
    match what {
        Description::Zones => push_zones(block, out, network),
        Description::Masks => push_masks(block, out, network),
    }
}

/// Writes what is told of networks in blocks.
#[inline]
fn write_each<C: FamilyCidr, S: Sink>(
    out: &mut S,
    what: Description,
    networks: &[C],
) -> Result<(), OutputFailed> {
    let mut block = Block::new();
    for network in networks {
        push_told(&mut block, out, what, &network.to_ip())?;
    }
    block.write(out)
}

/// Writes what is told of the networks of sets. An output that has failed before gets nothing.
#[inline]
fn write_told<S: Sink>(out: &mut S, what: Description, sets: &Sets) -> Result<(), OutputFailed> {
    if out.failed() {
        return Err(OutputFailed);
    }
    write_each(out, what, sets.v4.as_slice())?;
    write_each(out, what, sets.v6.as_slice())?;
    flush(out)
}

/// Tells of the networks of an operand.
#[inline]
fn describe_networks<'a, M: Memory, F: Sources, O: Sink>(
    memory: &mut M,
    sources: &F,
    what: Description,
    operand: &'a str,
    out: &mut O,
) -> Result<Verdict, CommandError<'a>> {
    let sets = read_operand(memory, sources, operand)?;
    by_output(Verdict::Yes, write_told(out, what, &sets))
}

/// The prefix length that an argument stands for as a mask.
#[inline]
fn mask_length_of(text: &str) -> Option<u8> {
    let Ok(mask) = text.parse::<IpAddr>() else {
        return None;
    };
    length_of_mask(mask)
}

/// Writes a prefix length as a line.
#[inline]
fn write_length<S: Sink>(out: &mut S, len: u8) -> Result<(), OutputFailed> {
    write_line(out, &[decimal_text(u128::from(len)).as_str(), "\n"])
}

/// The command `mask` of an operand that is no prefix length.
#[inline]
fn describe_mask<'a, M: Memory, F: Sources, O: Sink>(
    memory: &mut M,
    sources: &F,
    operand: &'a str,
    out: &mut O,
) -> Result<Verdict, CommandError<'a>> {
    match mask_length_of(operand) {
        Some(len) => by_output(Verdict::Yes, write_length(out, len)),
        None => describe_networks(memory, sources, Description::Masks, operand, out),
    }
}

/// The commands `reverse` and `mask`.
#[inline]
pub fn describe<'a, M: Memory, F: Sources, O: Sink>(
    memory: &mut M,
    sources: &F,
    what: Description,
    operand: &'a str,
    out: &mut O,
) -> Result<Verdict, CommandError<'a>> {
    match what {
        Description::Zones => describe_networks(memory, sources, what, operand, out),
        Description::Masks => match length_of(operand) {
            Some(len) => by_output(Verdict::Yes, write_text(out, length_lines(len).as_str())),
            None => describe_mask(memory, sources, operand, out),
        },
    }
}
