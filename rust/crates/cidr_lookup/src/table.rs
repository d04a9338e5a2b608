//! Look-up tables of keys.

use cidr_support::vec::Vec;
use crate::address::Address;
use crate::building::put_table;
use crate::key::Key;
use crate::ranges::ranges_of;
use crate::words::{Stop, Stopped};
use cidr_support::alloc::Global;
use core::error::Error;
use core::fmt;

/// The words of a look-up table, for [`find`](crate::find).
pub struct LookupTable {
    /// The entries of the blocks of addresses that have the same first bits.
    pub first: Vec<u32>,
    /// The nodes, each behind what it leads to, and the lists.
    pub words: Vec<u32>,
    /// How many steps of six bits there are behind the first bits: 3 to 5 of IPv4, 19 or 20 of IPv6. The last step has two
    /// bits in IPv4, and four in IPv6.
    pub steps: u32,
}

/// Why no table was built: the first of these, but that an allocation may fail before any but the first.
#[derive(Debug, PartialEq)]
pub enum TableError {
    /// There are more than 2,147,483,647 keys: `more than 2147483647 keys`.
    TooMany,
    /// The key at this index, counted from 0, is no network, or doesn't come after the one before it: the first such
    /// key. `no network, or out of order: key 2`.
    Refused(usize),
    /// The table has more than 1,073,741,823 words: `more than 1073741823 words`.
    TooLarge,
    /// An allocation failed: `out of memory`.
    NoMemory,
}

impl fmt::Display for TableError {
    #[inline]
    fn fmt(&self, f: &mut fmt::Formatter<'_>) -> fmt::Result {
        match self {
            TableError::TooMany => f.write_str("more than 2147483647 keys"),
            TableError::Refused(index) => { write!(f, "no network, or out of order: key {index}") }
            TableError::TooLarge => f.write_str("more than 1073741823 words"),
            TableError::NoMemory => f.write_str("out of memory"),
        }
    }
}

impl Error for TableError {}

/// The look-up table of keys that ascend by their first addresses and then by their lengths, and of which none repeats. Keys
/// have one table alone. Values stand beside the keys: [`find`](crate::find) gives the index of a key.
///
/// It takes O(n) for n keys, and while it runs 16 bytes a key of IPv4, or 40 of IPv6, besides the table.
///
/// ```
/// # use cidr::Ipv4Cidr;
/// # use cidr_lookup::*;
/// # use cidr_support::alloc::Global;
/// # use cidr_table::LpmTable;
/// # use core::net::Ipv4Addr;
/// # fn find_in(alloc: Global, keys: &[Key<u32>], address: Ipv4Addr) -> Result<Option<usize>, TableError> {
/// let table = build(alloc, keys)?;
/// let first = table.first.as_slice();
/// let words = table.words.as_slice();
/// Ok(find(&first, &words, table.steps, address.to_bits()))
/// # }
/// # let keys = [Key { address: 0x0a000000u32, len: 8 }, Key { address: 0x0a010000, len: 16 }];
/// # let address = "10.1.2.3".parse()?;
/// # assert_eq!(find_in(Global, &keys, address)?, Some(1));
/// # Ok::<(), Box<dyn std::error::Error>>(())
/// ```
///
/// # Errors
///
/// `TableError`, which tells what is wrong.
pub fn build<A: Address>(alloc: Global, keys: &[Key<A>]) -> Result<LookupTable, TableError> {
    let ranges = ranges_of(alloc, keys)?;
    let steps = A::steps_for(keys.len());
    let blocks = 1 << (A::padded_width() - 6 * steps);
    let Ok(mut first) = Vec::with_capacity(alloc, blocks) else {
        return Err(TableError::NoMemory);
    };
    let mut words = Vec::new(alloc);
    let starts = ranges.starts.as_slice();
    let answers = ranges.answers.as_slice();
    match put_table(keys, starts, answers, &mut first, &mut words, steps) {
        Ok(()) => {
            if words.len() >= 1 << 30 {
                return Err(TableError::TooLarge);
            }
            words.shrink_to_fit();
            Ok(LookupTable {
                first,
                words,
                steps,
            })
        }
        Err(Stopped::Words(Stop::TooMany)) => Err(TableError::TooLarge),
        Err(_) => Err(TableError::NoMemory),
    }
}
