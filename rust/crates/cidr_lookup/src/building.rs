//! The words of networks, by their ranges.

use crate::address::Address;
use crate::key::Key;
use crate::list::{MOST_CHANGES, MOST_LIST_STEPS, put_list};
use crate::node::{PARTS, Runs, put_node};
use crate::search::PLACE;
use crate::words::{Sink, Stop, Stopped};

/// How many words may stand before a node or a list.
const MOST_WORDS: usize = 1 << 30;

/// Puts the entries of all blocks of 64^steps numbers, and the words of their nodes and lists.
pub(crate) fn put_table<A: Address, F: Sink, S: Sink>(
    keys: &[Key<A>],
    starts: &[A],
    answers: &[u32],
    first: &mut F,
    words: &mut S,
    steps: u32,
) -> Result<(), Stopped> {
    let blocks = 1u64 << (A::padded_width() - 6 * steps);
    let mut near = 0;
    let mut until = 0;
    for block in 0..blocks {
        let entry = match next_entry(
            keys, starts, answers, words, steps, block, &mut near, &mut until,
        ) {
            Ok(entry) => entry,
            Err(stop) => return Err(Stopped::Words(stop)),
        };
        match first.push(entry) {
            Ok(()) => {}
            Err(stop) => return Err(Stopped::First(stop)),
        }
    }
    Ok(())
}

/// The entry of a block, as of `entry_of`. The blocks before `until` lie in the range.
#[inline(always)]
fn next_entry<A: Address, S: Sink>(
    keys: &[Key<A>],
    starts: &[A],
    answers: &[u32],
    sink: &mut S,
    steps: u32,
    block: u64,
    near: &mut usize,
    until: &mut u64,
) -> Result<u32, Stop> {
    if block < *until {
        return Ok(answers[*near]);
    }
    let entry = entry_of(keys, starts, answers, sink, steps, u128::from(block), near)?;
    *until = block_of_next(starts, *near, steps);
    Ok(entry)
}

/// The block in which the next range begins, or a number above all, where none does.
#[inline(always)]
fn block_of_next<A: Address>(starts: &[A], range: usize, steps: u32) -> u64 {
    let next = range + 1;
    if next == starts.len() {
        return u64::MAX;
    }
    starts[next].block(6 * steps) as u64
}

/// The entry of a block of 64^steps numbers. The words of its nodes and lists are put behind those that were put. `near` is
/// a range that begins at most with the first number, and then the last such range. The keys, whose ranges these are, are
/// for the contract.
pub(crate) fn entry_of<A: Address, S: Sink>(
    keys: &[Key<A>],
    starts: &[A],
    answers: &[u32],
    sink: &mut S,
    steps: u32,
    block: u128,
    near: &mut usize,
) -> Result<u32, Stop> {
    *near = last_upto(starts, *near, steps, block, 0);
    if is_whole(starts, *near, steps, block) {
        return Ok(answers[*near]);
    }
    if let Some(count) = changes_in(keys, starts, answers, steps, block, *near) {
        return put_listed(keys, starts, answers, sink, steps, block, *near, count);
    }
    let mut runs = Runs::new();
    let mut part = 0;
    loop {
        part = add_whole(keys, starts, answers, &mut runs, steps, block, part, near);
        if part >= PARTS {
            break;
        }
        let child = block * PARTS as u128 + part as u128;
        let entry = entry_of(keys, starts, answers, sink, steps - 1, child, near)?;
        runs.add(part, part + 1, entry);
        part += 1;
    }
    let index = sink.len();
    if index >= MOST_WORDS {
        return Err(Stop::TooMany);
    }
    put_node(&runs, sink)?;
    Ok(PLACE + 2 * index as u32)
}

/// How many changes the list of a block has, or `None` where it has no list. `range` is the last that begins at most with
/// the first number, and another begins behind it. The rest is as in `entry_of`.
fn changes_in<A: Address>(
    keys: &[Key<A>],
    starts: &[A],
    answers: &[u32],
    steps: u32,
    block: u128,
    range: usize,
) -> Option<usize> {
    if steps > MOST_LIST_STEPS {
        return None;
    }
    let mut count = 0;
    while !is_whole(starts, range + count, steps, block) {
        count += 1;
        if count > MOST_CHANGES {
            return None;
        }
        if rest_of(starts, range + count) != 0 {
            return None;
        }
    }
    Some(count)
}

/// Puts the list of a block, and returns its entry. It has the changes to so many ranges behind `range`.
#[inline]
fn put_listed<A: Address, S: Sink>(
    keys: &[Key<A>],
    starts: &[A],
    answers: &[u32],
    sink: &mut S,
    steps: u32,
    block: u128,
    range: usize,
    count: usize,
) -> Result<u32, Stop> {
    let index = sink.len();
    if index >= MOST_WORDS {
        return Err(Stop::TooMany);
    }
    put_list(starts, answers, range, count, sink)?;
    Ok(PLACE + 2 * index as u32 + 1)
}

/// Adds the values of parts from one on, up to the first in which a range begins, which is returned, or the number of parts.
/// `near` is a range that begins at most with the first of them, and the rest as in `entry_of`.
#[inline(always)]
fn add_whole<A: Address>(
    keys: &[Key<A>],
    starts: &[A],
    answers: &[u32],
    runs: &mut Runs,
    steps: u32,
    block: u128,
    from: usize,
    near: &mut usize,
) -> usize {
    let mut part = from;
    let mut range = *near;
    while part < PARTS {
        range = last_upto(starts, range, steps, block, part);
        let end = part_of_next(starts, range, steps, block);
        if end <= part {
            *near = range;
            return part;
        }
        runs.add(part, end, answers[range]);
        part = end;
    }
    *near = range;
    part
}

/// The part of a block in which the next range begins, or the number of parts, where it begins behind the block or none does.
#[inline(always)]
fn part_of_next<A: Address>(starts: &[A], range: usize, steps: u32, block: u128) -> usize {
    if is_whole(starts, range, steps, block) {
        return PARTS;
    }
    part_of(starts, range + 1, steps)
}

/// The part of its block in which a range begins.
#[inline(always)]
fn part_of<A: Address>(starts: &[A], range: usize, steps: u32) -> usize {
    let number = starts[range].number();
    if steps == 1 {
        return (((number % 64) << A::padding()) % 64) as usize;
    }
    ((number >> (6 * (steps - 1) - A::padding())) % 64) as usize
}

/// The last range that begins at most with the first number of a part of a block, from one on that does.
#[inline(always)]
fn last_upto<A: Address>(starts: &[A], from: usize, steps: u32, block: u128, part: usize) -> usize {
    let number = first_of::<A>(steps, block, part);
    let mut range = from;
    while range + 1 < starts.len() {
        if starts[range + 1].number() > number {
            return range;
        }
        range += 1;
    }
    range
}

/// The address with which a part of a block begins.
#[inline(always)]
fn first_of<A: Address>(steps: u32, block: u128, part: usize) -> u128 {
    A::width();
    let within = (part as u128) << (6 * (steps - 1));
    (block << (6 * steps - A::padding())) + (within >> A::padding())
}

/// Whether no later range begins in a block.
#[inline(always)]
fn is_whole<A: Address>(starts: &[A], range: usize, steps: u32, block: u128) -> bool {
    let next = range + 1;
    if next == starts.len() {
        return true;
    }
    starts[next].number() >> (6 * steps - A::padding()) > block
}

/// How far a range begins behind a multiple of 2^82.
#[inline(always)]
fn rest_of<A: Address>(starts: &[A], range: usize) -> u128 {
    starts[range].number() % (1 << (82 - A::padding()))
}
