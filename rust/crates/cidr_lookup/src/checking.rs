//! Whether words are the look-up table of keys.

use crate::address::Address;
use crate::building::put_table;
use crate::key::Key;
use crate::ranges::ranges_of;
use crate::table::TableError;
use crate::words::{Compared, Sink, Stopped, Words};
use cidr_support::alloc::Global;
use core::error::Error;
use core::fmt;

/// What is wrong with words: the first of these.
#[derive(Debug, PartialEq)]
pub enum WordsFault {
    /// So many steps leave no first bits, or more than 32: `no such number of steps`.
    Steps,
    /// One of the two arrays has more words than a table may have: `more than 1073741823 words`.
    TooLong,
    /// The keys have no table, or an allocation failed: the error's own message.
    Keys(TableError),
    /// The entry at this index, counted from 0, is another than in the table of the keys, or one of the two has fewer: the
    /// first such entry. `not of the keys: entry 2`.
    First(usize),
    /// The same of the words of nodes and lists: `not of the keys: word 2`.
    Word(usize),
}

impl fmt::Display for WordsFault {
    #[inline]
    fn fmt(&self, f: &mut fmt::Formatter<'_>) -> fmt::Result {
        match self {
            WordsFault::Steps => f.write_str("no such number of steps"),
            WordsFault::TooLong => f.write_str("more than 1073741823 words"),
            WordsFault::Keys(error) => fmt::Display::fmt(error, f),
            WordsFault::First(index) => write!(f, "not of the keys: entry {index}"),
            WordsFault::Word(index) => write!(f, "not of the keys: word {index}"),
        }
    }
}

impl Error for WordsFault {}

/// Whether words are the look-up table of keys, so that look-ups in them are right: the table is built, and compared as it
/// goes.
///
/// It takes the time of `build`, and the memory that it takes besides the table. The error is the first that [`WordsFault`] names,
/// in its order, but that an entry and a word are told as they are built.
///
/// ```
/// # use cidr::Ipv4Cidr;
/// # use cidr_lookup::*;
/// # use cidr_support::alloc::Global;
/// # use cidr_table::LpmTable;
/// # use core::net::Ipv4Addr;
/// # fn find_in(
/// #     alloc: Global, keys: &[Key<u32>], first: &[u32], words: &[u32], steps: u32, address: Ipv4Addr,
/// # ) -> Result<Option<usize>, WordsFault> {
/// check(alloc, keys, &first, &words, steps)?;
/// Ok(find(&first, &words, steps, address.to_bits()))
/// # }
/// # let keys = [Key { address: 0x0a000000u32, len: 8 }, Key { address: 0x0a010000, len: 16 }];
/// # let address = "10.1.2.3".parse()?;
/// # let table = build(Global, &keys)?;
/// # let (first, words) = (table.first.as_slice(), table.words.as_slice());
/// # assert_eq!(find_in(Global, &keys, first, words, table.steps, address)?, Some(1));
/// # Ok::<(), Box<dyn std::error::Error>>(())
/// ```
///
/// # Errors
///
/// `WordsFault`, which tells what is wrong.
pub fn check<A: Address, T: Words>(
    alloc: Global,
    keys: &[Key<A>],
    first: &T,
    words: &T,
    steps: u32,
) -> Result<(), WordsFault> {
    if !are_steps::<A>(steps) {
        return Err(WordsFault::Steps);
    }
    if first.len() >= 1 << 30 {
        return Err(WordsFault::TooLong);
    }
    if words.len() >= 1 << 30 {
        return Err(WordsFault::TooLong);
    }
    let ranges = match ranges_of(alloc, keys) {
        Ok(ranges) => ranges,
        Err(error) => return Err(WordsFault::Keys(error)),
    };
    let starts = ranges.starts.as_slice();
    let answers = ranges.answers.as_slice();
    let mut entries = Compared {
        words: first,
        index: 0,
    };
    let mut nodes = Compared { words, index: 0 };
    match put_table(keys, starts, answers, &mut entries, &mut nodes, steps) {
        Ok(()) => {
            if entries.index < first.len() {
                return Err(WordsFault::First(entries.index));
            }
            if nodes.index < words.len() {
                return Err(WordsFault::Word(nodes.index));
            }
            Ok(())
        }
        Err(Stopped::First(_)) => Err(WordsFault::First(entries.len())),
        Err(Stopped::Words(_)) => Err(WordsFault::Word(nodes.len())),
    }
}

/// Whether so many steps leave first bits, and at most 32.
#[inline]
fn are_steps<A: Address>(steps: u32) -> bool {
    let width = A::padded_width();
    if steps > 21 {
        return false;
    }
    let shift = 6 * steps;
    shift < width && width <= shift + 32
}
