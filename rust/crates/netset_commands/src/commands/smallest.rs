//! The fewest rows in which a table gives each address its value.

use cidr_support::vec::Vec;
use crate::errors::{CommandError, FileError};
use crate::input::files::Sources;
use crate::input::numbers::Numbers;
use crate::input::table::read_table;
use crate::input::tables::PlainTable;
use crate::output::answers::{Verdict, by_output};
use crate::output::rows::push_row;
use cidr::{FamilyCidr, Ipv4Cidr, Ipv6Cidr, NetworkBits};
use cidr_forwarding::SmallestTable;
use cidr_io::block::Block;
use cidr_io::memory::Memory;
use cidr_io::sink::{OutputFailed, Sink};
use cidr_lists::forms::RowForm;
use cidr_lists::rows::{Span, value_at_span};
use cidr_table::LpmTable;
use cidr_support::alloc::{AllocError, Global};

/// The rows of a table.
#[inline]
fn rows_of<C: NetworkBits + Copy, V>(table: &LpmTable<C, V>) -> &[(C, V)] {
    table.iter().as_slice()
}

/// Rows none of which is a hole.
#[inline]
fn no_holes<C: Copy>(
    alloc: Global,
    rows: &[(C, usize)],
) -> Result<Vec<(C, Option<usize>)>, AllocError> {
    let mut made = Vec::with_capacity(alloc, rows.len())?;
    for row in rows {
        made.push((row.0, Some(row.1)))?;
    }
    Ok(made)
}

/// The fewest rows that forward as a table does, without holes.
#[inline]
fn plain_rows<C: FamilyCidr>(
    alloc: Global,
    table: &LpmTable<C, usize>,
) -> Result<Vec<(C, Option<usize>)>, AllocError> {
    let smallest = table.smallest(alloc)?;
    let made = no_holes(alloc, rows_of(&smallest))?;
    Ok(made)
}

/// The same with holes.
#[inline]
fn holed_rows<C: FamilyCidr>(
    alloc: Global,
    table: &LpmTable<C, usize>,
) -> Result<Vec<(C, Option<usize>)>, AllocError> {
    let smallest = table.smallest_with_holes(alloc)?;
    let mut made = Vec::new(alloc);
    made.extend_from_slice(rows_of(&smallest))?;
    Ok(made)
}

/// One or the other.
#[inline]
fn fewest_rows<C: FamilyCidr>(
    alloc: Global,
    table: &LpmTable<C, usize>,
    holes: bool,
) -> Result<Vec<(C, Option<usize>)>, AllocError> {
    if holes {
        holed_rows(alloc, table)
    } else {
        plain_rows(alloc, table)
    }
}

/// The fewest rows of each family, with the numbers of their values, or none where a row is a hole.
struct Fewest<'a> {
    numbers: Numbers<'a>,
    v4: Vec<(Ipv4Cidr, Option<usize>)>,
    v6: Vec<(Ipv6Cidr, Option<usize>)>,
}

/// Those of a table.
#[inline]
fn fewest_of<'a>(
    alloc: Global,
    table: &'a PlainTable,
    holes: bool,
) -> Result<Fewest<'a>, AllocError> {
    let numbers = Numbers::of_table(alloc, table)?;
    let all = table.values.as_slice();
    let ipv4 = numbers.table(alloc, &table.v4, all)?;
    let v4 = fewest_rows(alloc, &ipv4, holes)?;
    let ipv6 = numbers.table(alloc, &table.v6, all)?;
    let v6 = fewest_rows(alloc, &ipv6, holes)?;
    Ok(Fewest { numbers, v4, v6 })
}

/// What is written of the value of a row.
#[inline]
fn told_value<'n>(numbers: &Numbers<'n>, value: Option<usize>) -> &'n [u8] {
    match value {
        Some(number) => numbers.value(number),
        None => b"-",
    }
}

/// Appends the lines of the rows of one family to a block.
fn push_rows<C: FamilyCidr, S: Sink>(
    block: &mut Block,
    out: &mut S,
    numbers: &Numbers<'_>,
    rows: &[(C, Option<usize>)],
) -> Result<(), OutputFailed> {
    for row in rows {
        push_row(
            block,
            out,
            b"",
            b"",
            row.0.to_text_with_length(),
            told_value(numbers, row.1),
        )?;
    }
    Ok(())
}

/// Appends the lines of all rows to a block.
#[inline]
fn push_fewest<S: Sink>(
    block: &mut Block,
    out: &mut S,
    fewest: &Fewest<'_>,
) -> Result<(), OutputFailed> {
    push_rows(block, out, &fewest.numbers, fewest.v4.as_slice())?;
    push_rows(block, out, &fewest.numbers, fewest.v6.as_slice())
}

/// Writes the lines of all rows, and flushes. An output that has failed before gets nothing.
#[inline]
fn write_fewest<S: Sink>(out: &mut S, fewest: &Fewest<'_>) -> Result<(), OutputFailed> {
    if out.failed() {
        return Err(OutputFailed);
    }
    let mut block = Block::new();
    push_fewest(&mut block, out, fewest)?;
    block.flush(out)
}

/// Whether rows have a value.
#[inline]
fn has_value<C>(rows: &[(C, Span)], all: &[u8], value: &[u8]) -> bool {
    for row in rows {
        if value_at_span(all, row.1) == value {
            return true;
        }
    }
    false
}

/// Whether a table has the value that stands for a hole.
#[inline]
fn has_hole(table: &PlainTable) -> bool {
    let all = table.values.as_slice();
    if has_value(rows_of(&table.v4), all, b"-") {
        return true;
    }
    has_value(rows_of(&table.v6), all, b"-")
}

/// Whether there may be holes, and the table has that value.
#[inline]
fn is_refused(holes: bool, table: &PlainTable) -> bool {
    if holes { has_hole(table) } else { false }
}

/// Tells the fewest rows of a table.
#[inline]
fn tell_fewest<'a, M: Memory, S: Sink>(
    memory: &mut M,
    table: &PlainTable,
    holes: bool,
    out: &mut S,
) -> Result<Verdict, CommandError<'a>> {
    let fewest = fewest_of(memory.alloc(), table, holes);
    let fewest = memory.watch(fewest)?;
    by_output(Verdict::Yes, write_fewest(out, &fewest))
}

/// The command `smallest`.
#[inline]
pub fn smallest<'a, M: Memory, F: Sources, O: Sink>(
    memory: &mut M,
    sources: &F,
    holes: bool,
    form: RowForm,
    table: &'a str,
    out: &mut O,
) -> Result<Verdict, CommandError<'a>> {
    let rows = read_table(memory, sources, form, table)?;
    if is_refused(holes, &rows) {
        return Err(CommandError::File(table, FileError::Hole));
    }
    tell_fewest(memory, &rows, holes, out)
}
