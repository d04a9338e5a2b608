//! The pass over networks that ascend, which comes to one range after the other.

use crate::address::Address;
use crate::key::{Key, ones};

/// How many keys may be open: one of each length up to 128, and one that stands for no key.
const MOST_OPEN: usize = 130;

/// Where the pass is: in a range that has begun, and in the keys that are open there, each in the one before it.
pub(crate) struct Pass {
    /// The number that the range begins with.
    pub(crate) start: u128,
    /// How many keys have been opened.
    pub(crate) index: usize,
    /// How many are open, and one more, which stands for no key and comes first.
    pub(crate) depth: usize,
    /// The last number of each open key.
    pub(crate) lasts: [u128; MOST_OPEN],
    /// How many keys there are up to that of each open key, and 0 for no key.
    pub(crate) ends: [u32; MOST_OPEN],
}

/// The pass before the first key.
pub(crate) fn started<A: Address>(keys: &[Key<A>]) -> Pass {
    let mut lasts = [0; MOST_OPEN];
    lasts[0] = ones(A::width());
    Pass {
        start: 0,
        index: 0,
        depth: 1,
        lasts,
        ends: [0; MOST_OPEN],
    }
}

/// Goes on to where the answer may change, or returns false where it is the same up to the last address. The answer of
/// the addresses that it passes was that of the last open key.
pub(crate) fn goes_on<A: Address>(keys: &[Key<A>], pass: &mut Pass) -> bool {
    let last = pass.lasts[pass.depth - 1];
    if pass.index < keys.len() {
        let key = keys[pass.index];
        let first = key.address.number();
        if first <= last {
            let depth = pass.depth;
            pass.lasts[depth] = key.last();
            pass.ends[depth] = pass.index as u32 + 1;
            pass.start = first;
            pass.depth = depth + 1;
            pass.index += 1;
            return true;
        }
    }
    if last == pass.lasts[0] {
        return false;
    }
    pass.start = last + 1;
    pass.depth -= 1;
    true
}
