//! Where two tables give addresses different values.

use cidr_support::vec::Vec;
use crate::errors::CommandError;
use crate::input::files::Sources;
use crate::input::numbers::Numbers;
use crate::input::table::read_table;
use crate::input::tables::PlainTable;
use crate::output::answers::{Verdict, by_output};
use crate::output::rows::push_row;
use cidr_support::arrayvec::ArrayString;
use cidr::{FamilyCidr, Ipv4Cidr, Ipv6Cidr};
use cidr_forwarding::{Answers, differences};
use cidr_io::block::Block;
use cidr_io::memory::Memory;
use cidr_io::sink::{OutputFailed, Sink};
use cidr_io::writing::flush;
use cidr_lists::changes::{Sign, sign_text};
use cidr_lists::forms::RowForm;
use cidr_lists::rows::Span;
use cidr_table::LpmTable;
use cidr_support::alloc::{AllocError, Global};

/// The networks for which two tables have different values, each with the numbers of both, and the values by their numbers.
struct Differing<'a> {
    numbers: Numbers<'a>,
    v4: Vec<(Ipv4Cidr, Answers<usize>)>,
    v6: Vec<(Ipv6Cidr, Answers<usize>)>,
}

/// The networks of one family for which two tables have different numbers.
#[inline]
fn listed<C: FamilyCidr>(
    alloc: Global,
    numbers: &Numbers<'_>,
    old: &LpmTable<C, Span>,
    old_values: &[u8],
    new: &LpmTable<C, Span>,
    new_values: &[u8],
) -> Result<Vec<(C, Answers<usize>)>, AllocError> {
    let before = numbers.table(alloc, old, old_values)?;
    let after = numbers.table(alloc, new, new_values)?;
    differences(alloc, &before, &after)
}

/// The networks of each family for which two tables have different values.
#[inline]
fn compare<'a>(
    alloc: Global,
    old: &'a PlainTable,
    new: &'a PlainTable,
) -> Result<Differing<'a>, AllocError> {
    let numbers = Numbers::of_tables(alloc, old, new)?;
    let old_values = old.values.as_slice();
    let new_values = new.values.as_slice();
    let v4 = listed(alloc, &numbers, &old.v4, old_values, &new.v4, new_values)?;
    let v6 = listed(alloc, &numbers, &old.v6, old_values, &new.v6, new_values)?;
    Ok(Differing { numbers, v4, v6 })
}

/// Appends the line of the value of a number, if there is one.
fn push_number<S: Sink>(
    block: &mut Block,
    out: &mut S,
    numbers: &Numbers<'_>,
    sign: Sign,
    text: ArrayString<43>,
    number: Option<usize>,
) -> Result<(), OutputFailed> {
    match number {
        Some(number) => push_row(
            block,
            out,
            sign_text(sign).as_bytes(),
            b"",
            text,
            numbers.value(number),
        ),
        None => Ok(()),
    }
}

/// Appends the lines of the values that two tables have for a network.
#[inline]
fn push_differences<C: FamilyCidr, S: Sink>(
    block: &mut Block,
    out: &mut S,
    numbers: &Numbers<'_>,
    row: (C, Answers<usize>),
) -> Result<(), OutputFailed> {
    let text = row.0.to_text();
    push_number(block, out, numbers, Sign::Minus, text, row.1.0)?;
    push_number(block, out, numbers, Sign::Plus, text, row.1.1)
}

/// Writes the lines of networks of one family in blocks.
#[inline]
fn write_rows<C: FamilyCidr, S: Sink>(
    out: &mut S,
    numbers: &Numbers<'_>,
    rows: &[(C, Answers<usize>)],
) -> Result<(), OutputFailed> {
    let mut block = Block::new();
    for row in rows {
        push_differences(&mut block, out, numbers, *row)?;
    }
    block.write(out)
}

/// Writes what was found, IPv4 before IPv6. An output that has failed before gets nothing.
#[inline]
fn write_found<S: Sink>(out: &mut S, differing: &Differing<'_>) -> Result<(), OutputFailed> {
    if out.failed() {
        return Err(OutputFailed);
    }
    write_rows(out, &differing.numbers, differing.v4.as_slice())?;
    write_rows(out, &differing.numbers, differing.v6.as_slice())?;
    flush(out)
}

/// Yes where there is no difference.
#[inline]
fn verdict_of(differing: &Differing<'_>) -> Verdict {
    if differing.v4.is_empty() && differing.v6.is_empty() {
        Verdict::Yes
    } else {
        Verdict::No
    }
}

/// The command `same`.
#[inline]
pub fn same<'a, M: Memory, F: Sources, O: Sink>(
    memory: &mut M,
    sources: &F,
    form: RowForm,
    old: &'a str,
    new: &'a str,
    out: &mut O,
) -> Result<Verdict, CommandError<'a>> {
    let before = read_table(memory, sources, form, old)?;
    let after = read_table(memory, sources, form, new)?;
    let made = compare(memory.alloc(), &before, &after);
    let made = memory.watch(made)?;
    by_output(verdict_of(&made), write_found(out, &made))
}
