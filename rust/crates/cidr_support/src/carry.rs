//! Sums and differences of numbers of several words, for compilers before 1.91. Later ones have calls of these names
//! themselves, and call those.

/// Numbers that are added and subtracted word by word.
pub trait Carrying: Sized {
    /// The sum with what carries from the word before, and whether it carries.
    ///
    /// ```
    /// use cidr_support::carry::Carrying;
    ///
    /// assert_eq!(Carrying::carrying_add(u64::MAX, 0, true), (0, true));
    /// assert_eq!(Carrying::carrying_add(u64::MAX, u64::MAX, true), (u64::MAX, true));
    /// assert_eq!(Carrying::carrying_add(1, 2, true), (4, false));
    /// ```
    fn carrying_add(self, other: Self, carry: bool) -> (Self, bool);

    /// The difference with what the word before borrows, and whether it borrows.
    ///
    /// ```
    /// use cidr_support::carry::Carrying;
    ///
    /// assert_eq!(Carrying::borrowing_sub(0, 0, true), (u64::MAX, true));
    /// assert_eq!(Carrying::borrowing_sub(0, u64::MAX, true), (0, true));
    /// assert_eq!(Carrying::borrowing_sub(4, 2, true), (1, false));
    /// ```
    fn borrowing_sub(self, other: Self, borrow: bool) -> (Self, bool);
}

impl Carrying for u64 {
    #[inline]
    fn carrying_add(self, other: u64, carry: bool) -> (u64, bool) {
        let (sum, one) = self.overflowing_add(other);
        let (sum, two) = sum.overflowing_add(u64::from(carry));
        (sum, one | two)
    }

    #[inline]
    fn borrowing_sub(self, other: u64, borrow: bool) -> (u64, bool) {
        let (rest, one) = self.overflowing_sub(other);
        let (rest, two) = rest.overflowing_sub(u64::from(borrow));
        (rest, one | two)
    }
}
