//! Look-ups of the longest match.

use crate::rows::Rows;
use crate::search::{clipped, is_inside, search, search_back};
use crate::table::LpmTable;
use cidr::NetworkBits;

impl<C: NetworkBits + Copy, V> LpmTable<C, V> {
    /// The row of the longest key that contains the look-up key, or `None` where none does: the longest match of a
    /// forwarding table (RFC 1812, 5.2.4.3). An address is looked up as the network of full prefix length.
    ///
    /// It takes a binary search, O(log n), and then at most one more for each set bit of the look-up key, most of which
    /// end after a few comparisons. It allocates nothing; who looks up many addresses in rows that stay makes them ready
    /// once, by the `ReadyTable` of `cidr_lookup`.
    ///
    /// ```
    /// # use cidr::{errors::*, *};
    /// # use cidr_table::{alloc::*, *};
    /// # type Routes = LpmTable<Ipv4Cidr, u32>;
    /// let rows = [("0.0.0.0/0".parse()?, 1), ("10.0.0.0/8".parse()?, 2), ("10.1.0.0/16".parse()?, 3)];
    /// let mut routes: Routes = rows.into_iter().collect();
    /// assert_eq!(format!("{:?}", routes.lookup(&"10.1.2.3".parse()?)), "Some((10.1.0.0/16, 3))");
    /// assert_eq!(format!("{:?}", routes.lookup(&"10.2.0.0/16".parse()?)), "Some((10.0.0.0/8, 2))");
    /// # Ok::<(), Box<dyn std::error::Error>>(())
    /// ```
    #[inline]
    pub fn lookup(&self, asked: &C) -> Option<&(C, V)> {
        longest(self.ascending(), asked)
    }
}

/// The row of the longest key that contains the look-up key.
fn longest<'a, C: NetworkBits + Copy, V>(rows: &'a [(C, V)], asked: &C) -> Option<&'a (C, V)> {
    let mut end = upto(rows, rows.len(), asked);
    while end > 0 {
        let row = &rows[end - 1];
        if is_inside(asked, &row.0) {
            return Some(row);
        }
        // A key that begins the look-up key begins this one's too: it is no longer than what they share.
        let shared = asked.shared_prefix_len(&row.0);
        end = upto_back(rows, end - 1, &clipped(asked, shared));
    }
    None
}

/// How many of the first `end` keys there are up to the look-up key in the order: those that begin its bits are among
/// them.
#[inline]
fn upto<C: NetworkBits, V>(rows: &[(C, V)], end: usize, asked: &C) -> usize {
    match search(&mut Rows::new(rows), asked, end) {
        Ok(index) => index + 1,
        Err(index) => index,
    }
}

/// The same, for a look-up key that likely stands near the end.
#[inline]
fn upto_back<C: NetworkBits, V>(rows: &[(C, V)], end: usize, asked: &C) -> usize {
    // Of keys that are spread evenly, about `step` begin with the same bits.
    let step = rows.len() >> asked.len().min(63);
    match search_back(&mut Rows::new(rows), asked, end, step, 64) {
        Ok(index) => index + 1,
        Err(index) => index,
    }
}
