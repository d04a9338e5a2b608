//! What holes leave of regions, as regions of which no two have a packet in common.

use cidr_support::vec::Vec;
use crate::errors::RulesError;
use crate::fields::{FieldValue, Range};
use crate::regions::{Destination, DestinationPort, Field, Protocol, Region, Source, SourcePort};
use cidr_support::alloc::AllocError;

/// What is to be done with a part.
#[derive(Clone, Copy)]
pub(crate) enum Step {
    /// No hole meets it.
    Keep,
    /// One hole holds all of it.
    Skip,
    /// The hole at this index meets it.
    Cut(usize),
}

/// Appends the region with this range of a field, if there is one.
#[inline]
fn push_piece<A: FieldValue, F: Field<A>>(
    parts: &mut Vec<Region<A>>,
    region: &Region<A>,
    range: Option<Range<F::Value>>,
) -> Result<(), AllocError> {
    match range {
        Some(range) => {
            parts.push(F::with_range(region, range))?;
            Ok(())
        }
        None => Ok(()),
    }
}

/// Appends what is beside a hole in one field, and leaves in the rest what is not.
#[inline]
fn trim<A: FieldValue, F: Field<A>>(
    parts: &mut Vec<Region<A>>,
    rest: &mut Region<A>,
    hole: &Region<A>,
) -> Result<(), AllocError> {
    let range = F::range(rest);
    let out = F::range(hole);
    push_piece::<A, F>(parts, rest, range.below(&out))?;
    push_piece::<A, F>(parts, rest, range.above(&out))?;
    *rest = F::with_range(rest, range.common(&out));
    Ok(())
}

/// Appends what a hole, which meets the region, leaves of it: regions of which no two have a packet in common.
#[inline]
fn cut<A: FieldValue>(
    parts: &mut Vec<Region<A>>,
    region: &Region<A>,
    hole: &Region<A>,
) -> Result<(), AllocError> {
    let mut rest = *region;
    trim::<A, Source>(parts, &mut rest, hole)?;
    trim::<A, Destination>(parts, &mut rest, hole)?;
    trim::<A, Protocol>(parts, &mut rest, hole)?;
    trim::<A, SourcePort>(parts, &mut rest, hole)?;
    trim::<A, DestinationPort>(parts, &mut rest, hole)?;
    Ok(())
}

/// The index of the first hole that meets the region.
#[inline]
fn first_meeting<A: FieldValue>(region: &Region<A>, holes: &[Region<A>]) -> Option<usize> {
    holes.iter().position(|hole| region.meets(hole))
}

/// Whether one hole holds all of the region.
#[inline]
fn one_covers<A: FieldValue>(region: &Region<A>, holes: &[Region<A>]) -> bool {
    holes.iter().any(|hole| region.is_within(hole))
}

/// What is to be done with a region.
fn step_of<A: FieldValue>(region: &Region<A>, holes: &[Region<A>]) -> Step {
    match first_meeting(region, holes) {
        None => Step::Keep,
        Some(i) => {
            if one_covers(region, holes) {
                Step::Skip
            } else {
                Step::Cut(i)
            }
        }
    }
}

/// Appends what the first hole that meets a region leaves of it; where none meets it, tells that it is to be kept.
fn settle<A: FieldValue>(
    parts: &mut Vec<Region<A>>,
    region: &Region<A>,
    holes: &[Region<A>],
) -> Result<bool, AllocError> {
    match step_of(region, holes) {
        Step::Keep => Ok(true),
        Step::Skip => Ok(false),
        Step::Cut(i) => {
            cut(parts, region, &holes[i])?;
            Ok(false)
        }
    }
}

/// The next region of what the holes leave of the parts; what is left of these stays in them. Each part that is looked at
/// takes one from the budget.
pub(crate) fn next_rest<A: FieldValue>(
    parts: &mut Vec<Region<A>>,
    holes: &[Region<A>],
    budget: &mut u64,
) -> Result<Option<Region<A>>, RulesError> {
    while let Some(region) = parts.pop() {
        if *budget == 0 {
            return Err(RulesError::TooManyParts);
        }
        *budget -= 1;
        let kept = settle(parts, &region, holes)?;
        if kept {
            return Ok(Some(region));
        }
    }
    Ok(None)
}
