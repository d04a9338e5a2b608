//! Rows that change, in an array of the caller: networks that ascend, each once, as `pcidr_compare` has them. A call costs as
//! many comparisons as a few searches by halving, and allocates nothing. Of networks in another order it finds some index that
//! there is, or none; of a value that is no network the bits after its prefix do not count.
//!
//! Beside them the caller keeps which lengths they may have, so that a longest match is not sought among others: a byte for each,
//! at 0 for `any` and else at one more than the prefix length, of either family, which is 0 where no network has it.

use crate::codes::{NO_ROOM, NO_VALUE, NONE, OK, PRESENT};
use crate::finding::{put_list, put_plain};
use crate::values::{CValue, network_at, value_network};
use cidr::{AnyIpCidr, BitString};
use cidr_rows::{Keys, add_length, add_lengths, covered, covering, find, insert, longest, remove};

/// So many networks can begin the bits of one: those of each length up to its own, of 129 at most.
const MOST: usize = 130;

/// The networks of an array.
#[derive(Clone, Copy)]
struct NetworkKeys<'a> {
    values: &'a [CValue],
}

impl<'a> Keys<AnyIpCidr> for NetworkKeys<'a> {
    #[inline]
    fn len(&self) -> usize {
        self.values.len()
    }

    #[inline]
    fn key(&self, i: usize) -> AnyIpCidr {
        network_at(&self.values[i])
    }
}

/// Where a network stands: 0 and its index; or the number of none, and the index before which it would stand.
pub fn pcidr_rows_find(networks: &[CValue], asked: &CValue, index: &mut usize) -> u32 {
    let Some(asked) = value_network(asked) else {
        return NO_VALUE;
    };
    match find(&NetworkKeys { values: networks }, &asked) {
        Ok(found) => {
            *index = found;
            OK
        }
        Err(found) => {
            *index = found;
            NONE
        }
    }
}

/// Says of the lengths of all networks that there may be such: 0.
#[inline]
pub fn pcidr_rows_lengths(networks: &[CValue], lengths: &mut [u8]) -> u32 {
    add_lengths(&NetworkKeys { values: networks }, lengths);
    OK
}

/// The longest network that a network, or an address, is in, of those lengths that there may be: 0 and its index, or the number of
/// none.
#[inline]
pub fn pcidr_rows_longest(
    networks: &[CValue],
    lengths: &[u8],
    asked: &CValue,
    index: &mut usize,
) -> u32 {
    match value_network(asked) {
        Some(asked) => {
            let found = longest(&NetworkKeys { values: networks }, lengths, &asked);
            put_plain(found, index)
        }
        None => NO_VALUE,
    }
}

/// The networks that are in a network, which may be one of them: those from the index `from` on and before the index `to`.
#[inline]
pub fn pcidr_rows_covered(
    networks: &[CValue],
    outer: &CValue,
    from: &mut usize,
    to: &mut usize,
) -> u32 {
    let Some(outer) = value_network(outer) else {
        return NO_VALUE;
    };
    let (first, end) = covered(&NetworkKeys { values: networks }, &outer);
    *from = first;
    *to = end;
    OK
}

/// The indexes of all networks that a network, or an address, is in, ascending, and so the shortest network first: the first
/// `count` of `out`; where there is too little room, `count` becomes how many they are.
#[inline]
pub fn pcidr_rows_covering(
    networks: &[CValue],
    asked: &CValue,
    out: &mut [usize],
    count: &mut usize,
) -> u32 {
    let Some(asked) = value_network(asked) else {
        return NO_VALUE;
    };
    let mut indexes = [0; MOST];
    let found = covering(&NetworkKeys { values: networks }, &asked, &mut indexes);
    put_list(&indexes[..found], out, count)
}

/// Puts a network in its place among the first `count`, and those from there on move by one, and says that there may be networks
/// of its length: 0 and its index. Or the number of one that stands there already, and its index.
pub fn pcidr_rows_insert(
    networks: &mut [CValue],
    lengths: &mut [u8],
    count: &mut usize,
    network: &CValue,
    index: &mut usize,
) -> u32 {
    if networks.len() < *count {
        return NO_ROOM;
    }
    let mut found = 0;
    let code = pcidr_rows_find(&networks[..*count], network, &mut found);
    if code == NO_VALUE {
        return NO_VALUE;
    }
    if code == OK {
        *index = found;
        return PRESENT;
    }
    if networks.len() == *count {
        return NO_ROOM;
    }
    insert(networks, *count, found, *network);
    add_length(lengths, network_at(network).len());
    *count += 1;
    *index = found;
    OK
}

/// Takes a network out of the first `count`, and those behind it move by one: 0 and the index where it stood, or the number of
/// none.
pub fn pcidr_rows_remove(
    networks: &mut [CValue],
    count: &mut usize,
    network: &CValue,
    index: &mut usize,
) -> u32 {
    if networks.len() < *count {
        return NO_ROOM;
    }
    let mut found = 0;
    let code = pcidr_rows_find(&networks[..*count], network, &mut found);
    if code != OK {
        return code;
    }
    remove(networks, *count, found);
    *count -= 1;
    *index = found;
    OK
}
