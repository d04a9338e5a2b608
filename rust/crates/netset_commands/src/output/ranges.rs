//! Writing sets as ranges of addresses.

use cidr::FamilyCidr;
use cidr_io::block::Block;
use cidr_io::sink::{OutputFailed, Sink};
use cidr_io::writing::flush;
use cidr_lists::sets::Sets;
use cidr_sets::{AddressRange, Addressed, Ranges};

/// Appends a range to a block, as a line.
fn push_range<C: FamilyCidr, S: Sink>(
    block: &mut Block,
    out: &mut S,
    range: AddressRange<C::Address>,
) -> Result<(), OutputFailed> {
    let first = C::address_text(&range.first);
    if C::to_number(range.first) == C::to_number(range.last) {
        return block.push_line(out, &[first.as_str().as_bytes(), b"\n"]);
    }
    let last = C::address_text(&range.last);
    block.push_line(
        out,
        &[
            first.as_str().as_bytes(),
            b"-",
            last.as_str().as_bytes(),
            b"\n",
        ],
    )
}

/// Writes ranges in blocks, one a line.
#[inline]
fn write_each<C: FamilyCidr + Addressed<Address = <C as FamilyCidr>::Address>, S: Sink>(
    out: &mut S,
    mut ranges: Ranges<'_, C>,
) -> Result<(), OutputFailed> {
    let mut block = Block::new();
    while let Some(range) = ranges.next() {
        push_range::<C, S>(&mut block, out, range)?;
    }
    block.write(out)
}

/// Writes the longest ranges of the addresses, one a line. An output that has failed before gets nothing.
#[inline]
pub fn write_ranges<S: Sink>(out: &mut S, sets: &Sets) -> Result<(), OutputFailed> {
    let (v4, v6) = (sets.v4.ranges(), sets.v6.ranges());
    if out.failed() {
        return Err(OutputFailed);
    }
    write_each(out, v4)?;
    write_each(out, v6)?;
    flush(out)
}
