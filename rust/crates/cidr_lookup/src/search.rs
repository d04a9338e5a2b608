//! The longest match of an address.

use crate::address::Address;
use crate::list::MOST_CHANGES;
use crate::words::Words;

/// The least entry that has a place.
pub(crate) const PLACE: u32 = 1 << 31;

/// How many steps an address of 128 bits may take.
const MOST_STEPS: u32 = 21;

/// How many of the last bits of a number are zeros where a change of a list is. Shorter numbers have no lists.
const LISTS: u32 = 82;

/// The index of the longest of the keys that have an address, or `None` where none has it: the longest match of a
/// forwarding table (RFC 1812, 5.2.4.3). The keys are not read.
///
/// Whatever the words are, it reads none outside of them, and ends. It is the longest match in the table of keys, as
/// [`build`](crate::build) returned it or [`check`](crate::check) accepted it. In other words it may be any index.
///
/// It takes one step for each six bits that are needed to tell the match: each reads two lines of memory at most.
///
/// ```
/// # use cidr::Ipv4Cidr;
/// # use cidr_lookup::*;
/// # use cidr_support::alloc::Global;
/// # use cidr_table::LpmTable;
/// # use core::net::Ipv4Addr;
/// # fn find_in(first: &[u32], words: &[u32], steps: u32, address: Ipv4Addr) -> Result<Option<usize>, WordsFault> {
/// Ok(find(&first, &words, steps, address.to_bits()))
/// # }
/// # let keys = [Key { address: 0x0a000000u32, len: 8 }, Key { address: 0x0a010000, len: 16 }];
/// # let address = "10.1.2.3".parse()?;
/// # let table = build(Global, &keys)?;
/// # let (first, words) = (table.first.as_slice(), table.words.as_slice());
/// # assert_eq!(find_in(first, words, table.steps, address)?, Some(1));
/// # Ok::<(), Box<dyn std::error::Error>>(())
/// ```
#[inline(always)]
pub fn find<A: Address, T: Words>(first: &T, words: &T, steps: u32, address: A) -> Option<usize> {
    row(value_by_steps(first, words, steps, address))
}

/// The index that a value says.
#[inline(always)]
fn row(value: u32) -> Option<usize> {
    if value == 0 {
        return None;
    }
    Some((value - 1) as usize)
}

/// The value that an address is led to. There is a code of its own for each number of steps that is in use, but for the 20 of a few
/// networks of IPv6, since a shift by a constant is quicker. Only IPv6, which has lists, tests for its 19.
#[inline(always)]
fn value_by_steps<A: Address, T: Words>(first: &T, words: &T, steps: u32, address: A) -> u32 {
    if A::padded_width() > LISTS && steps == 19 {
        return found_value(first, words, 19, address);
    }
    match steps {
        3 => found_value(first, words, 3, address),
        4 => found_value(first, words, 4, address),
        5 => found_value(first, words, 5, address),
        _ => found_value(first, words, steps, address),
    }
}

/// The value that an address is led to by so many steps, with the last of which it ends. Where their number is a constant, the
/// compiler writes one step behind the other.
#[inline(always)]
fn found_value<A: Address, T: Words>(first: &T, words: &T, steps: u32, address: A) -> u32 {
    address.number();
    let width = A::padded_width();
    if steps > MOST_STEPS {
        return 0;
    }
    let shift = 6 * steps;
    if shift >= width {
        return 0;
    }
    if width - shift > 31 {
        return 0;
    }
    let at = address.block(shift);
    if at >= first.len() {
        return 0;
    }
    let mut entry = first.word(at);
    let mut rest = address.behind(width - shift);
    let mut left = steps;
    while entry >= PLACE {
        let index = ((entry - PLACE) / 2) as usize;
        if width > LISTS && entry % 2 == 1 {
            return listed(words, index, address.list_word());
        }
        if left == 0 {
            return 0;
        }
        left -= 1;
        if index + 1 >= words.len() {
            return 0;
        }
        let marks = u64::from(words.word(index + 1)) * (1 << 32) + u64::from(words.word(index));
        let upto = marks >> (63 - rest.part());
        let next = index + 1 + upto.count_ones() as usize;
        if next >= words.len() {
            return 0;
        }
        entry = words.word(next);
        rest = rest.behind(6);
    }
    entry
}

/// The value that the list at a place has for the addresses with this word.
#[inline(always)]
fn listed<T: Words>(words: &T, index: usize, address: u32) -> u32 {
    if index >= words.len() {
        return 0;
    }
    let count = words.word(index) as usize;
    if count > MOST_CHANGES {
        return 0;
    }
    let starts = index + 1;
    let values = starts + count;
    if values + count >= words.len() {
        return 0;
    }
    words.word(values + upto(words, starts, count, address))
}

/// How many of the changes of a list, whose words ascend, are at most a word. All are compared: the compiler compares several by
/// one instruction, where halving would guess at each word.
#[inline(always)]
fn upto<T: Words>(words: &T, starts: usize, count: usize, word: u32) -> usize {
    let mut found = 0;
    for i in 0..count {
        let change = words.word(starts + i);
        if change <= word {
            found += 1;
        }
    }
    found
}
