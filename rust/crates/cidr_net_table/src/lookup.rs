//! The longest match: the look-up over whatever compares its keys.

use crate::probe::Probe;
use crate::search::{binary_digits, clipped, search_back, shared_len};
use cidr::names::{BitString, NetworkBits};

/// The index of the longest key that the look-up key is in, counted from 0 in the order of the keys, or `None` where it
/// is in no key: the longest match of a forwarding table (RFC 1812, 5.2.4.3). An address is looked up as the network of
/// full prefix length.
///
/// With n keys, d binary digits of n and a look-up key of `len` bits, it makes at most `(len + 1) * d` comparisons, and
/// fewer for most look-up keys. It allocates nothing. The caller has to ensure that the keys ascend, each once, as those
/// that `probe` of a table gives do.
///
/// ```
/// # use cidr::names::{errors::*, *};
/// # use cidr_table::{alloc::*, *};
/// # type Routes = LpmTable<Ipv4Cidr, u32>;
/// let mut routes = LpmTable::<Ipv4Cidr, u32>::new(Global);
/// assert_eq!(format!("{:?}", routes.insert("10.0.0.0/8".parse()?, 1)), "Ok(None)");
/// assert_eq!(format!("{:?}", routes.insert("10.1.0.0/16".parse()?, 2)), "Ok(None)");
/// let mut rows = routes.probe();
/// assert_eq!(format!("{:?}", longest_match(&mut rows, &"10.1.2.3".parse()?)), "Some(1)");
/// assert_eq!(format!("{:?}", longest_match(&mut rows, &"11.0.0.1".parse()?)), "None");
/// # Ok::<(), Box<dyn std::error::Error>>(())
/// ```
pub fn longest_match<C: NetworkBits + Copy, P: Probe<C>>(rows: &mut P, asked: &C) -> Option<usize> {
    // Each length may take `digits` comparisons. What the lengths so far left over is `spare`.
    let digits = binary_digits(rows.len());
    let mut spare = digits;
    let mut end = rows.len();
    let mut len = asked.len();
    while end > 0 && len > 0 {
        // Of keys that are spread evenly, about `step` begin with the same `len` bits.
        let step = rows.len() >> len.min(63);
        let tries = spare.saturating_sub(digits).min(digits);
        match search_back(rows, &clipped(asked, len), end, step, tries) {
            Ok(index) => return Some(index),
            Err(index) => end = index,
        }
        spare -= tries;
        len -= 1;
        let cost = binary_digits(len);
        if end > 0 && cost < spare {
            match shared_len(rows, end - 1, asked, len) {
                Ok(_) => return Some(end - 1),
                Err(shared) => {
                    spare = spare - cost + (len - shared) * digits;
                    len = shared;
                }
            }
        }
    }
    // The key of no bits comes before all others.
    if end > 0 && rows.compare(0, &clipped(asked, 0)).is_eq() {
        Some(0)
    } else {
        None
    }
}
