//! Searches in networks that ascend.

use cidr::NetworkBits;
use cidr_table::Probe;

/// How many networks come before this one or are the same. Binary search: it makes at most as many comparisons as the
/// number of networks has binary digits.
pub fn index<C: NetworkBits, P: Probe<C>>(networks: &mut P, network: &C) -> usize {
    let mut low = 0;
    let mut left = networks.len();
    while left > 0 {
        let half = left / 2;
        let order = networks.compare(low + half, network);
        if order.is_le() {
            low += left - half;
        }
        left = half;
    }
    low
}
