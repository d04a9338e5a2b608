//! Rows whose keys have their first bits in common: the value of the network of these bits, and its longer rows.

use cidr::NetworkBits;

/// What the rows of a network are, each with the value of the network itself.
pub(crate) enum Opened<'a, C, V> {
    /// None is longer.
    Ended(Option<V>),
    /// The longer ones share at least two bits more: the key of one, all of them, and how many bits they share.
    Narrowed(Option<V>, C, &'a [(C, V)], usize),
    /// The key of a longer one, and those of the lower half and of the upper one.
    Parted(Option<V>, C, &'a [(C, V)], &'a [(C, V)]),
}

/// The rows of a network: its own value, the longer rows, and which of these are in the lower half and in the upper one.
pub(crate) struct Halved<'a, C, V> {
    pub own: Option<V>,
    pub rest: &'a [(C, V)],
    pub lower: &'a [(C, V)],
    pub upper: &'a [(C, V)],
}

/// The rows of a network, where a value is inherited.
#[inline(always)]
pub(crate) fn open<C: NetworkBits + Copy, V: Copy + Ord>(
    rows: &[(C, V)],
    depth: usize,
    inherited: Option<V>,
) -> Opened<'_, C, V> {
    let (own, rest) = longer(rows, depth, inherited);
    if rest.is_empty() {
        return Opened::Ended(own);
    }
    let more = shared(rest, depth);
    if more > 1 {
        return Opened::Narrowed(own, rest[0].0, rest, depth + more);
    }
    let (lower, upper) = split(rest, depth);
    Opened::Parted(own, rest[0].0, lower, upper)
}

/// The rows of a network by halves, also where they share bits or none is longer.
pub(crate) fn halve<C: NetworkBits + Copy, V: Copy>(
    rows: &[(C, V)],
    depth: usize,
    inherited: Option<V>,
) -> Halved<'_, C, V> {
    let (own, rest) = longer(rows, depth, inherited);
    let (lower, upper) = split(rest, depth);
    Halved {
        own,
        rest,
        lower,
        upper,
    }
}

/// The value of the row of no more than `depth` bits, which is the first, or that which is inherited where there is
/// none; and the other rows.
#[inline]
fn longer<C: NetworkBits + Copy, V: Copy>(
    rows: &[(C, V)],
    depth: usize,
    inherited: Option<V>,
) -> (Option<V>, &[(C, V)]) {
    match rows.first() {
        Some(row) if row.0.len() <= depth => (Some(row.1), &rows[1..]),
        _ => (inherited, rows),
    }
}

/// How many bits more than `depth` all rows share.
#[inline]
fn shared<C: NetworkBits + Copy, V: Copy>(rows: &[(C, V)], depth: usize) -> usize {
    rows[0].0.shared_prefix_len(&rows[rows.len() - 1].0) - depth
}

/// The rows of the lower half, and those of the upper one.
fn split<C: NetworkBits + Copy, V: Copy>(rows: &[(C, V)], depth: usize) -> (&[(C, V)], &[(C, V)]) {
    let mut low = 0;
    let mut high = rows.len();
    while low < high {
        let mid = low + (high - low) / 2;
        if rows[mid].0.get(depth) {
            high = mid;
        } else {
            low = mid + 1;
        }
    }
    rows.split_at(low)
}

/// The network of the first `len` bits of a key.
#[inline]
pub(crate) fn first_bits<C: NetworkBits + Copy>(key: &C, len: usize) -> C {
    let mut first = *key;
    first.clip(len);
    first
}

/// The network of the first `depth` bits of a key and one bit more.
#[inline]
pub(crate) fn half<C: NetworkBits + Copy>(key: &C, depth: usize, upper: bool) -> C {
    let mut half = *key;
    half.clip(depth + 1);
    half.set(depth, upper);
    half
}
