//! The values that a field of a packet has, and ranges of them.

/// The values of a field, which stand in a row as numbers do.
pub trait FieldValue: Sized + Copy {
    /// Whether this value is the other or comes before it.
    ///
    /// ```
    /// # use cidr::*;
    /// # use cidr_rules::*;
    /// # use cidr_support::alloc::Global;
    /// assert!(80u16.is_upto(443));
    /// # Ok::<(), Box<dyn std::error::Error>>(())
    /// ```
    fn is_upto(self, other: Self) -> bool;

    /// The next value. The caller has to ensure that a greater one is given.
    ///
    /// ```
    /// # use cidr::*;
    /// # use cidr_rules::*;
    /// # use cidr_support::alloc::Global;
    /// assert_eq!(80u16.next(443), 81);
    /// # Ok::<(), Box<dyn std::error::Error>>(())
    /// ```
    fn next(self, greater: Self) -> Self;

    /// The value before. The caller has to ensure that a lesser one is given.
    ///
    /// ```
    /// # use cidr::*;
    /// # use cidr_rules::*;
    /// # use cidr_support::alloc::Global;
    /// assert_eq!(443u16.previous(80), 442);
    /// # Ok::<(), Box<dyn std::error::Error>>(())
    /// ```
    fn previous(self, less: Self) -> Self;
}

impl FieldValue for u8 {
    #[inline]
    fn is_upto(self, other: u8) -> bool {
        self <= other
    }

    #[inline]
    fn next(self, _greater: u8) -> u8 {
        self + 1
    }

    #[inline]
    fn previous(self, _less: u8) -> u8 {
        self - 1
    }
}

impl FieldValue for u16 {
    #[inline]
    fn is_upto(self, other: u16) -> bool {
        self <= other
    }

    #[inline]
    fn next(self, _greater: u16) -> u16 {
        self + 1
    }

    #[inline]
    fn previous(self, _less: u16) -> u16 {
        self - 1
    }
}

/// The values from one to another, both included. There is none where the last comes before the first.
#[derive(Debug, Clone, Copy)]
pub struct Range<T: FieldValue> {
    /// The least value.
    pub first: T,
    /// The greatest value.
    pub last: T,
}

impl<T: FieldValue> Range<T> {
    /// Whether a value is in the range.
    ///
    /// ```
    /// # use cidr::*;
    /// # use cidr_rules::*;
    /// # use cidr_support::alloc::Global;
    /// assert!(Range { first: 1024u16, last: 65535 }.contains(8080));
    /// # Ok::<(), Box<dyn std::error::Error>>(())
    /// ```
    #[inline]
    pub fn contains(&self, value: T) -> bool {
        self.first.is_upto(value) && value.is_upto(self.last)
    }

    /// Whether there is a value in the range.
    #[inline]
    pub(crate) fn has_value(&self) -> bool {
        self.first.is_upto(self.last)
    }

    /// Whether neither of two ranges ends before the other begins.
    #[inline]
    pub(crate) fn meets(&self, other: &Range<T>) -> bool {
        other.first.is_upto(self.last) && self.first.is_upto(other.last)
    }

    /// Whether the range begins and ends within another.
    #[inline]
    pub(crate) fn is_within(&self, other: &Range<T>) -> bool {
        other.first.is_upto(self.first) && self.last.is_upto(other.last)
    }

    /// Whether both ranges begin and end at the same values.
    #[inline]
    pub(crate) fn is_same(&self, other: &Range<T>) -> bool {
        self.is_within(other) && other.is_within(self)
    }

    /// Whether the range begins right behind another.
    #[inline]
    pub(crate) fn follows(&self, other: &Range<T>) -> bool {
        if self.first.is_upto(other.last) {
            return false;
        }
        self.first.is_upto(other.last.next(self.first))
    }

    /// Whether two ranges are the same, or one begins right behind the other.
    #[inline]
    pub(crate) fn is_close(&self, other: &Range<T>) -> bool {
        self.is_same(other) || (self.follows(other) || other.follows(self))
    }

    /// 1 where two ranges differ, and 0 where they are the same.
    #[inline]
    pub(crate) fn differing(&self, other: &Range<T>) -> u8 {
        if self.is_same(other) { 0 } else { 1 }
    }

    /// The range from where the first of two ranges begins to where the last of them ends.
    #[inline]
    pub(crate) fn hull(&self, other: &Range<T>) -> Range<T> {
        Range {
            first: earlier(self.first, other.first),
            last: later(self.last, other.last),
        }
    }

    /// The values of both ranges.
    #[inline]
    pub(crate) fn common(&self, other: &Range<T>) -> Range<T> {
        Range {
            first: later(self.first, other.first),
            last: earlier(self.last, other.last),
        }
    }

    /// What is below a hole.
    #[inline]
    pub(crate) fn below(&self, hole: &Range<T>) -> Option<Range<T>> {
        if hole.first.is_upto(self.first) {
            return None;
        }
        Some(Range {
            first: self.first,
            last: hole.first.previous(self.first),
        })
    }

    /// What is above a hole.
    #[inline]
    pub(crate) fn above(&self, hole: &Range<T>) -> Option<Range<T>> {
        if self.last.is_upto(hole.last) {
            return None;
        }
        Some(Range {
            first: hole.last.next(self.last),
            last: self.last,
        })
    }
}

/// The value that comes later.
#[inline]
fn later<T: FieldValue>(one: T, other: T) -> T {
    if one.is_upto(other) { other } else { one }
}

/// The value that comes earlier.
#[inline]
fn earlier<T: FieldValue>(one: T, other: T) -> T {
    if one.is_upto(other) { one } else { other }
}
