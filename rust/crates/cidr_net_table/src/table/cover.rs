//! The shortest list of networks that holds the same addresses as the keys of a table.

use crate::search::is_inside;
use crate::table::LpmTable;
use cidr::names::{BitString, NetworkBits};

impl<C: NetworkBits + Copy, V> LpmTable<C, V> {
    /// Writes the minimal aggregate of the keys to the first elements of `out`, ascending, and returns how many there
    /// are: the shortest list of networks that has the same addresses as the keys (aggregation, RFC 4632, 4). The
    /// proofs call it the least cover.
    ///
    /// A key inside another is left out, and the two halves of a network become that network, as far up as it goes. Of
    /// `AnyIpCidr`, 0.0.0.0/0 and ::/0 become `Any`. The values play no part.
    ///
    /// The caller has to ensure that `out` has at least as many elements as there are rows. The contract leaves open
    /// what is in `out` after the list. It takes one pass over the rows and allocates nothing.
    ///
    /// ```
    /// # use cidr::names::{errors::*, *};
    /// # use cidr_table::{alloc::*, *};
    /// # type Routes = LpmTable<Ipv4Cidr, u32>;
    /// let mut routes = LpmTable::<Ipv4Cidr, u32>::new(Global);
    /// assert_eq!(format!("{:?}", routes.insert("10.0.0.0/9".parse()?, 1)), "Ok(None)");
    /// assert_eq!(format!("{:?}", routes.insert("10.128.0.0/9".parse()?, 2)), "Ok(None)");
    /// let mut networks = ["0.0.0.0/0".parse::<Ipv4Cidr>()?; 2];
    /// if routes.len() <= 2 {
    ///     assert_eq!(routes.least_cover(&mut networks), 1);
    /// }
    /// assert_eq!(format!("{:?}", networks.first()), "Some(10.0.0.0/8)");
    /// # Ok::<(), Box<dyn std::error::Error>>(())
    /// ```
    ///
    /// # Panics
    ///
    /// Unless `self.len() <= out.len()`.
    #[inline]
    pub fn least_cover(&self, out: &mut [C]) -> usize {
        assert!(self.len() <= out.len());
        least_cover(self.rows.as_slice(), out)
    }
}

/// Writes the minimal aggregate of networks to the first elements of their own slice, ascending, and returns how many
/// there are: the shortest list of networks that has the same addresses (aggregation, RFC 4632, 4).
///
/// The caller has to ensure that the networks ascend with no repeats, as after `sort_unstable` and `dedup`. The contract
/// leaves open what is in the slice after the list. It takes one pass over the networks and allocates nothing.
///
/// ```
/// # use cidr::names::{errors::*, *};
/// # use cidr_table::{alloc::*, *};
/// # type Routes = LpmTable<Ipv4Cidr, u32>;
/// let mut networks: [Ipv4Cidr; 2] = ["10.0.0.0/9".parse()?, "10.128.0.0/9".parse()?];
/// assert_eq!(least_cover_in_place(&mut networks), 1);
/// assert_eq!(format!("{:?}", networks.first()), "Some(10.0.0.0/8)");
/// # Ok::<(), Box<dyn std::error::Error>>(())
/// ```
///
/// # Panics
///
/// Unless `networks.windows(2).all(|pair| pair[0] < pair[1])`.
pub fn least_cover_in_place<C: NetworkBits + Copy>(networks: &mut [C]) -> usize {
    assert!(networks.windows(2).all(|pair| pair[0] < pair[1]));
    let mut n = 0;
    for i in 0..networks.len() {
        let key = networks[i];
        if !is_covered(networks, n, &key) {
            networks[n] = key;
            n = merge(networks, n + 1);
        }
    }
    n
}

/// The least cover of the keys of rows that ascend by them.
///
/// The networks so far stand in `out` as a stack: a key inside the last one is skipped, any other is pushed, and while
/// the last two are the halves of one network, that replaces them. So there are no more merges than keys.
fn least_cover<C: NetworkBits + Copy, V>(rows: &[(C, V)], out: &mut [C]) -> usize {
    let mut n = 0;
    for row in rows {
        let key = &row.0;
        if !is_covered(out, n, key) {
            out[n] = *key;
            n = merge(out, n + 1);
        }
    }
    n
}

/// Whether one of the first `count` networks holds a key that is behind them all: if any, it is the last.
#[inline]
fn is_covered<C: NetworkBits>(out: &[C], count: usize, key: &C) -> bool {
    count > 0 && is_inside(key, &out[count - 1])
}

/// Replaces the last two networks by one while they are its halves, and returns how many are left.
#[inline]
fn merge<C: BitString>(out: &mut [C], count: usize) -> usize {
    let mut n = count;
    while n >= 2 && are_halves(&out[n - 2], &out[n - 1]) {
        let len = out[n - 2].len();
        out[n - 2].clip(len - 1);
        n -= 1;
    }
    n
}

/// Whether a network and a later one are the halves of one network.
#[inline]
fn are_halves<C: BitString>(lower: &C, upper: &C) -> bool {
    lower.len() == upper.len() && lower.shared_prefix_len(upper) + 1 == lower.len()
}
