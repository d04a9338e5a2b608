//! What the assertions of `slices` ask.

use cidr::names::NetworkBits;

/// Whether networks ascend, none contains another, and no two are the halves of one.
pub(crate) fn are_reduced<C: NetworkBits>(networks: &[C]) -> bool {
    networks.windows(2).all(|pair| {
        let shared = pair[0].shared_prefix_len(&pair[1]);
        let contains = shared == pair[0].len();
        let are_halves = pair[0].len() == pair[1].len() && shared + 1 == pair[0].len();
        pair[0] < pair[1] && !contains && !are_halves
    })
}
