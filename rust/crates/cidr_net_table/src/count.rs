//! The count of comparisons that a probe keeps, for the contracts only.

/// How many comparisons a [`Probe`](crate::Probe) has made, for the contracts only: it takes no memory, and has no
/// greatest number.
pub struct Count {}

impl Count {
    /// The count of no comparison.
    ///
    /// ```
    /// # use cidr::names::{errors::*, *};
    /// # use cidr_table::{alloc::*, *};
    /// # type Routes = LpmTable<Ipv4Cidr, u32>;
    /// assert_eq!(size_of_val(&Count::zero()), 0);
    /// # Ok::<(), Box<dyn std::error::Error>>(())
    /// ```
    #[inline]
    pub fn zero() -> Count {
        Count {}
    }

    /// Counts one comparison more.
    ///
    /// ```
    /// # use cidr::names::{errors::*, *};
    /// # use cidr_table::{alloc::*, *};
    /// # type Routes = LpmTable<Ipv4Cidr, u32>;
    /// let mut count = Count::zero();
    /// count.tick();
    /// assert_eq!(size_of_val(&count), 0);
    /// # Ok::<(), Box<dyn std::error::Error>>(())
    /// ```
    pub fn tick(&mut self) {}
}
