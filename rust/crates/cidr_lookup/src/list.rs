//! The words of a list.

use crate::address::Address;
use crate::words::{Sink, Stop};

/// The most changes that a list may have.
pub(crate) const MOST_CHANGES: usize = 31;

/// How many steps may be left for the addresses of a list, so that those have the bits before its words in common.
pub(crate) const MOST_LIST_STEPS: u32 = 19;

/// Puts the words of a list: the answer of a range, and the changes to so many ranges behind it.
#[inline]
pub(crate) fn put_list<A: Address, S: Sink>(
    starts: &[A],
    answers: &[u32],
    range: usize,
    count: usize,
    sink: &mut S,
) -> Result<(), Stop> {
    sink.push(count as u32)?;
    put_starts(starts, answers, range + 1, count, sink)?;
    sink.push(answers[range])?;
    put_answers(starts, answers, range + 1, count, sink)
}

/// Puts where so many ranges begin, from one on. The answers are for the contract.
#[inline]
fn put_starts<A: Address, S: Sink>(
    starts: &[A],
    answers: &[u32],
    from: usize,
    count: usize,
    sink: &mut S,
) -> Result<(), Stop> {
    for at in 0..count {
        sink.push(word_of(starts, from + at))?;
    }
    Ok(())
}

/// Puts the answers of so many ranges, from one on. The starts are for the contract.
#[inline]
fn put_answers<A: Address, S: Sink>(
    starts: &[A],
    answers: &[u32],
    from: usize,
    count: usize,
    sink: &mut S,
) -> Result<(), Stop> {
    for at in 0..count {
        sink.push(answers[from + at])?;
    }
    Ok(())
}

/// The word of the change to a range.
#[inline]
fn word_of<A: Address>(starts: &[A], range: usize) -> u32 {
    starts[range].list_word()
}
