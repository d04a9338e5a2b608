//! The networks of a prefix length that are free in a pool, or inside the networks of a list.

use crate::commands::combine::combination;
use crate::commands::operations::Operation;
use crate::errors::CommandError;
use crate::input::files::Sources;
use crate::input::operands::read_operand;
use crate::input::several::{Several, read_all};
use crate::output::answers::{Verdict, by_output};
use crate::output::walks::{push_last, push_next};
use cidr::{Family, FamilyCidr, IpCidr, Ipv4Cidr, Ipv6Cidr};
use cidr_ext::{CidrExt, Subnets};
use cidr_io::block::Block;
use cidr_io::memory::Memory;
use cidr_io::sink::{OutputFailed, Sink};
use cidr_lists::formats::{Layout, Style, walk_layout};
use cidr_lists::sets::Sets;

/// The longest prefix length.
const LONGEST: u8 = 128;

/// The prefix length that an argument is.
#[inline]
pub fn length_of(text: &str) -> Option<u8> {
    let Ok(len) = text.parse::<u8>() else {
        return None;
    };
    if len <= LONGEST { Some(len) } else { None }
}

/// Whether no more networks are written.
#[inline]
fn is_done(left: Option<u64>) -> bool {
    match left {
        Some(count) => count == 0,
        None => false,
    }
}

/// How many are left to write behind one.
#[inline]
fn one_less(left: Option<u64>) -> Option<u64> {
    match left {
        Some(count) => Some(count.saturating_sub(1)),
        None => None,
    }
}

/// Appends what stands in front of each of some networks to a block, up to a number; tells how many more may be written,
/// and the last one, which is held.
fn push_taken<S: Sink>(
    block: &mut Block,
    out: &mut S,
    layout: Layout<'_>,
    mut subnets: Subnets<IpCidr>,
    most: Option<u64>,
    first: Option<IpCidr>,
) -> Result<(Option<u64>, Option<IpCidr>), OutputFailed> {
    let mut left = most;
    let mut last = first;
    while let Some(subnet) = subnets.next() {
        if is_done(left) {
            return Ok((left, last));
        }
        push_next(block, out, layout, last)?;
        left = one_less(left);
        last = Some(subnet);
    }
    Ok((left, last))
}

/// The same of the networks of a prefix length inside a network.
#[inline]
fn push_subnets<S: Sink>(
    block: &mut Block,
    out: &mut S,
    layout: Layout<'_>,
    network: &IpCidr,
    len: u8,
    most: Option<u64>,
    first: Option<IpCidr>,
) -> Result<(Option<u64>, Option<IpCidr>), OutputFailed> {
    match network.subnets(len) {
        Some(subnets) => push_taken(block, out, layout, subnets, most, first),
        None => Ok((most, first)),
    }
}

/// The same of those inside each of some networks.
fn push_inside<C: FamilyCidr, S: Sink>(
    block: &mut Block,
    out: &mut S,
    layout: Layout<'_>,
    networks: &[C],
    len: u8,
    most: Option<u64>,
) -> Result<(Option<u64>, Option<IpCidr>), OutputFailed> {
    let mut left = most;
    let mut last = None;
    for network in networks {
        let (more, one) = push_subnets(block, out, layout, &network.to_ip(), len, left, last)?;
        left = more;
        last = one;
    }
    Ok((left, last))
}

/// Appends the networks of a prefix length inside each of some networks to a block as a layout has them, up to a number;
/// tells how many more may be written.
#[inline]
fn push_layout<C: FamilyCidr, S: Sink>(
    block: &mut Block,
    out: &mut S,
    layout: Layout<'_>,
    networks: &[C],
    len: u8,
    most: Option<u64>,
) -> Result<Option<u64>, OutputFailed> {
    let (left, last) = push_inside(block, out, layout, networks, len, most)?;
    push_last(block, out, layout, last)?;
    Ok(left)
}

/// Writes the networks of a prefix length inside some of IPv4 and some of IPv6, each as it is found, up to a number, and
/// flushes: in a style, or one a line. An output that has failed before gets nothing.
pub fn write_inside<S: Sink>(
    out: &mut S,
    style: Option<Style<'_>>,
    v4: &[Ipv4Cidr],
    v6: &[Ipv6Cidr],
    len: u8,
    most: Option<u64>,
) -> Result<(), OutputFailed> {
    if out.failed() {
        return Err(OutputFailed);
    }
    let mut block = Block::new();
    let ipv4 = walk_layout(style, Family::Ipv4);
    let left = push_layout(&mut block, out, ipv4, v4, len, most)?;
    let ipv6 = walk_layout(style, Family::Ipv6);
    push_layout(&mut block, out, ipv6, v6, len, left)?;
    block.flush(out)
}

/// Tells the networks of a prefix length that have only addresses of sets, up to a number.
pub fn tell_free<'a, S: Sink>(
    style: Option<Style<'_>>,
    sets: &Sets,
    len: u8,
    most: Option<u64>,
    out: &mut S,
) -> Result<Verdict, CommandError<'a>> {
    match sets.first_free(len) {
        Some(_) => by_output(
            Verdict::Yes,
            write_inside(
                out,
                style,
                sets.v4.as_slice(),
                sets.v6.as_slice(),
                len,
                most,
            ),
        ),
        None => by_output(Verdict::No, write_inside(out, style, &[], &[], len, most)),
    }
}

/// The command `free`, of at most so many networks, or all.
#[inline]
pub fn free<'a, M: Memory, F: Sources, O: Sink>(
    memory: &mut M,
    sources: &F,
    style: Option<Style<'_>>,
    most: Option<u64>,
    pool: &'a str,
    len: u8,
    used: &'a [&'a str],
    out: &mut O,
) -> Result<Verdict, CommandError<'a>> {
    let first = read_operand(memory, sources, pool)?;
    let others = read_all(memory, sources, used)?;
    let rest = combination(Operation::Minus, Several { first, others });
    let rest = memory.watch(rest)?;
    tell_free(style, &rest, len, most, out)
}
