//! What has keys, in any order.

/// Keys at indexes.
pub trait Keys<C>: Sized {
    /// How many they are.
    fn len(&self) -> usize;

    /// The key at an index, which the caller has to ensure to be below their number.
    fn key(&self, i: usize) -> C;
}
