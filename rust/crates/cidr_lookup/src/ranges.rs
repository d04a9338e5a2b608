//! The ranges of addresses between which the longest match changes.

use cidr_support::vec;
use cidr_support::vec::Vec;
use crate::address::Address;
use crate::key::{Key, first_refused};
use crate::pass::{goes_on, started};
use crate::table::TableError;
use cidr_support::alloc::Global;

/// The ranges of keys.
pub(crate) struct Ranges<A> {
    /// The first address of each range.
    pub(crate) starts: Vec<A>,
    /// How many keys there are up to the longest that has the addresses of the range, or 0 where none has them.
    pub(crate) answers: Vec<u32>,
}

/// The ranges of keys that ascend, two passes over them. The ranges are unique: two side by side differ in their answers.
pub(crate) fn ranges_of<A: Address>(alloc: Global, keys: &[Key<A>]) -> Result<Ranges<A>, TableError> {
    if keys.len() >= 1 << 31 {
        return Err(TableError::TooMany);
    }
    let most = 2 * keys.len() + 1;
    let Ok(mut starts) = vec![in alloc; A::of(0); most] else {
        return Err(TableError::NoMemory);
    };
    let Ok(mut answers) = vec![in alloc; 0; most] else {
        return Err(TableError::NoMemory);
    };
    if let Some(index) = first_refused(keys) {
        return Err(TableError::Refused(index));
    }
    let count = written(keys, starts.as_mut_slice(), answers.as_mut_slice());
    starts.truncate(count);
    answers.truncate(count);
    Ok(Ranges { starts, answers })
}

/// Writes the ranges, and returns how many there are.
fn written<A: Address>(keys: &[Key<A>], starts: &mut [A], answers: &mut [u32]) -> usize {
    let mut pass = started(keys);
    let mut count = 0;
    loop {
        let start = pass.start;
        let answer = pass.ends[pass.depth - 1];
        if !goes_on(keys, &mut pass) {
            put(starts, answers, count, start, answer);
            return count + 1;
        }
        count = put_range(starts, answers, count, start, answer, pass.start);
    }
}

/// Writes a range, unless it is empty, and returns how many ranges there are then.
#[inline]
fn put_range<A: Address>(
    starts: &mut [A],
    answers: &mut [u32],
    count: usize,
    start: u128,
    answer: u32,
    end: u128,
) -> usize {
    if end <= start {
        return count;
    }
    put(starts, answers, count, start, answer);
    count + 1
}

/// Writes a range.
#[inline]
fn put<A: Address>(starts: &mut [A], answers: &mut [u32], index: usize, start: u128, answer: u32) {
    starts[index] = A::of(start);
    answers[index] = answer;
}
