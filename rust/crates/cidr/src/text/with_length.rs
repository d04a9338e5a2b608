//! Values that are printed with their length.

/// A value that is always printed with its prefix length, also where that is full: /32 in IPv4 and /128 in IPv6.
///
/// The calls `with_length` of networks, hosts and pairs make it, and `to_text` or `{}` prints it. 192.0.2.1/32 is
/// printed as `192.0.2.1`, and through this as `192.0.2.1/32`.
#[derive(Clone, Copy)]
pub struct WithLength<T> {
    value: T,
}

impl<T> WithLength<T> {
    #[inline]
    pub(crate) fn new(value: T) -> WithLength<T> {
        WithLength { value }
    }

    /// What is printed.
    #[inline]
    pub(crate) fn get(&self) -> &T {
        &self.value
    }
}
