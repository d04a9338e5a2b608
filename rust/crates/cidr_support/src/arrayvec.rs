//! Strings and lists of a fixed room, without an allocation.

use core::fmt;
use core::ops::Deref;

/// A string of at most `CAP` bytes.
#[derive(Clone, Copy)]
pub struct ArrayString<const CAP: usize> {
    bytes: [u8; CAP],
    len: usize,
}

impl<const CAP: usize> ArrayString<CAP> {
    /// The empty string.
    ///
    /// ```
    /// # use cidr_support::arrayvec::*;
    /// assert_eq!(ArrayString::<8>::new().as_str(), "");
    /// ```
    #[inline]
    pub fn new() -> Self {
        ArrayString {
            bytes: [0; CAP],
            len: 0,
        }
    }

    /// Appends a string.
    ///
    /// ```
    /// # use cidr_support::arrayvec::*;
    /// let mut text = ArrayString::<8>::new();
    /// text.push_str("192.");
    /// text.push_str("0");
    /// assert_eq!(text.as_str(), "192.0");
    /// assert!(std::panic::catch_unwind(move || text.push_str(".2.0")).is_err());
    /// ```
    ///
    /// # Panics
    ///
    /// Where there is no room.
    #[inline]
    pub fn push_str(&mut self, text: &str) {
        let end = self.len + text.len();
        self.bytes[self.len..end].copy_from_slice(text.as_bytes());
        self.len = end;
    }

    /// Appends a string, if there is room for all of it.
    ///
    /// ```
    /// # use cidr_support::arrayvec::*;
    /// let mut text = ArrayString::<3>::new();
    /// assert!(text.try_push_str("192").is_ok() && text.try_push_str(".").is_err());
    /// ```
    ///
    /// # Errors
    ///
    /// `CapacityError` where there is no room, and then nothing changes.
    #[inline]
    pub fn try_push_str(&mut self, text: &str) -> Result<(), CapacityError> {
        if text.len() > CAP - self.len {
            return Err(CapacityError);
        }
        self.push_str(text);
        Ok(())
    }

    /// Appends a character, if there is room for it.
    ///
    /// ```
    /// # use cidr_support::arrayvec::*;
    /// let mut text = ArrayString::<1>::new();
    /// assert!(text.try_push('a').is_ok() && text.try_push('b').is_err());
    /// ```
    ///
    /// # Errors
    ///
    /// `CapacityError` where there is no room, and then nothing changes.
    #[inline]
    pub fn try_push(&mut self, c: char) -> Result<(), CapacityError> {
        self.try_push_str(c.encode_utf8(&mut [0; 4]))
    }

    /// Appends a character.
    ///
    /// ```
    /// # use cidr_support::arrayvec::*;
    /// let mut text = ArrayString::<8>::new();
    /// text.push('/');
    /// text.push('²');
    /// assert_eq!(text.as_str(), "/²");
    /// ```
    ///
    /// # Panics
    ///
    /// Where there is no room.
    #[inline]
    pub fn push(&mut self, c: char) {
        self.push_str(c.encode_utf8(&mut [0; 4]));
    }

    /// Leaves the first `len` bytes. A shorter string stays as it is.
    ///
    /// ```
    /// # use cidr_support::arrayvec::*;
    /// let mut text = ArrayString::<8>::new();
    /// text.push_str("10/8");
    /// text.truncate(2);
    /// text.truncate(3);
    /// assert_eq!(text.as_str(), "10");
    /// text.push('²');
    /// assert!(std::panic::catch_unwind(move || text.truncate(3)).is_err());
    /// ```
    ///
    /// # Panics
    ///
    /// Where `len` is within a character.
    #[inline]
    pub fn truncate(&mut self, len: usize) {
        if len < self.len {
            assert!(self.as_str().is_char_boundary(len));
            self.len = len;
        }
    }

    /// The string.
    ///
    /// ```
    /// # use cidr_support::arrayvec::*;
    /// let mut text = ArrayString::<8>::new();
    /// text.push_str("::1");
    /// assert_eq!(text.as_str(), "::1");
    /// ```
    #[inline]
    pub fn as_str(&self) -> &str {
        match core::str::from_utf8(&self.bytes[..self.len]) {
            Ok(text) => text,
            Err(_) => unreachable!(),
        }
    }
}

impl<const CAP: usize> Deref for ArrayString<CAP> {
    type Target = str;

    #[inline]
    fn deref(&self) -> &str {
        self.as_str()
    }
}

/// ```
/// # use cidr_support::arrayvec::*;
/// let (mut text, mut other) = (ArrayString::<8>::new(), ArrayString::<8>::new());
/// text.push_str("10/8");
/// other.push_str("10/9");
/// assert!(text == text && text != other);
/// assert_eq!(format!("{text:>6}, {text:?}, {}", text.len()), "  10/8, \"10/8\", 4");
/// text.truncate(2);
/// assert!(text != other);
/// other.truncate(2);
/// assert!(text == other);
/// ```
impl<const CAP: usize> Default for ArrayString<CAP> {
    fn default() -> Self {
        ArrayString::new()
    }
}

impl<const CAP: usize> PartialEq for ArrayString<CAP> {
    fn eq(&self, other: &Self) -> bool {
        self.as_str() == other.as_str()
    }
}

impl<const CAP: usize> Eq for ArrayString<CAP> {}

impl<const CAP: usize> fmt::Display for ArrayString<CAP> {
    fn fmt(&self, f: &mut fmt::Formatter<'_>) -> fmt::Result {
        self.as_str().fmt(f)
    }
}

/// Appends the whole text, or fails and appends nothing.
///
/// ```
/// # use cidr_support::arrayvec::*;
/// use std::fmt::Write;
/// let mut text = ArrayString::<2>::new();
/// assert!(write!(text, "{}", 42).is_ok());
/// assert!(write!(text, "{}", 1).is_err());
/// assert_eq!(text.as_str(), "42");
/// ```
impl<const CAP: usize> fmt::Write for ArrayString<CAP> {
    fn write_str(&mut self, text: &str) -> fmt::Result {
        self.try_push_str(text).map_err(|_| fmt::Error)
    }
}

impl<const CAP: usize> fmt::Debug for ArrayString<CAP> {
    fn fmt(&self, f: &mut fmt::Formatter<'_>) -> fmt::Result {
        self.as_str().fmt(f)
    }
}

/// There is no room.
#[derive(Clone, Copy, Debug, PartialEq, Eq)]
pub struct CapacityError;

/// A list of at most `CAP` items.
#[derive(Clone, Copy)]
pub struct ArrayVec<T, const CAP: usize> {
    items: [T; CAP],
    len: usize,
}

impl<T: Copy + Default, const CAP: usize> ArrayVec<T, CAP> {
    /// The empty list.
    ///
    /// ```
    /// # use cidr_support::arrayvec::*;
    /// assert_eq!(ArrayVec::<u8, 3>::new().as_slice(), []);
    /// ```
    #[inline]
    pub fn new() -> Self {
        ArrayVec {
            items: [T::default(); CAP],
            len: 0,
        }
    }
}

impl<T: Copy + Default, const CAP: usize> Default for ArrayVec<T, CAP> {
    fn default() -> Self {
        ArrayVec::new()
    }
}

impl<T, const CAP: usize> ArrayVec<T, CAP> {
    /// Appends an item.
    ///
    /// ```
    /// # use cidr_support::arrayvec::*;
    /// let mut list = ArrayVec::<u8, 2>::new();
    /// list.push(8);
    /// list.push(10);
    /// assert_eq!(list.as_slice(), [8, 10]);
    /// assert!(std::panic::catch_unwind(move || list.push(0)).is_err());
    /// ```
    ///
    /// # Panics
    ///
    /// Where there is no room.
    #[inline]
    pub fn push(&mut self, item: T) {
        self.items[self.len] = item;
        self.len += 1;
    }

    /// Appends some items, if there is room for all of them.
    ///
    /// ```
    /// # use cidr_support::arrayvec::*;
    /// let mut list = ArrayVec::<u8, 3>::new();
    /// assert!(list.try_extend_from_slice(&[8, 9]).is_ok() && list.try_extend_from_slice(&[1, 2]).is_err());
    /// assert_eq!(list.as_slice(), [8, 9]);
    /// ```
    ///
    /// # Errors
    ///
    /// `CapacityError` where there is no room, and then nothing changes.
    #[inline]
    pub fn try_extend_from_slice(&mut self, items: &[T]) -> Result<(), CapacityError>
    where
        T: Copy,
    {
        if items.len() > CAP - self.len {
            return Err(CapacityError);
        }
        self.items[self.len..self.len + items.len()].copy_from_slice(items);
        self.len += items.len();
        Ok(())
    }

    /// Whether there is room for no more.
    ///
    /// ```
    /// # use cidr_support::arrayvec::*;
    /// assert!(ArrayVec::from([8, 10]).is_full());
    /// ```
    #[inline]
    pub fn is_full(&self) -> bool {
        self.len == CAP
    }

    /// Removes all items.
    ///
    /// ```
    /// # use cidr_support::arrayvec::*;
    /// let mut list = ArrayVec::from([8, 10]);
    /// list.clear();
    /// assert!(list.as_slice().is_empty());
    /// ```
    #[inline]
    pub fn clear(&mut self) {
        self.len = 0;
    }

    /// Leaves the first `len` items. A shorter list stays as it is.
    ///
    /// ```
    /// # use cidr_support::arrayvec::*;
    /// let mut list = ArrayVec::from([8, 10, 0]);
    /// list.truncate(2);
    /// list.truncate(3);
    /// assert_eq!(list.as_slice(), [8, 10]);
    /// ```
    #[inline]
    pub fn truncate(&mut self, len: usize) {
        self.len = self.len.min(len);
    }

    /// The items.
    ///
    /// ```
    /// # use cidr_support::arrayvec::*;
    /// assert_eq!(ArrayVec::from([8, 10, 0]).as_slice(), [8, 10, 0]);
    /// ```
    #[inline]
    pub fn as_slice(&self) -> &[T] {
        &self.items[..self.len]
    }
}

/// A full list.
impl<T, const CAP: usize> From<[T; CAP]> for ArrayVec<T, CAP> {
    #[inline]
    fn from(items: [T; CAP]) -> Self {
        ArrayVec { items, len: CAP }
    }
}

impl<T, const CAP: usize> Deref for ArrayVec<T, CAP> {
    type Target = [T];

    #[inline]
    fn deref(&self) -> &[T] {
        self.as_slice()
    }
}

/// ```
/// # use cidr_support::arrayvec::*;
/// let (mut list, mut other) = (ArrayVec::from([8, 10, 0]), ArrayVec::from([8, 10, 1]));
/// assert!(list == list && list != other);
/// assert_eq!(format!("{list:?} {}", list.len()), "[8, 10, 0] 3");
/// list.truncate(2);
/// assert!(list != other);
/// other.truncate(2);
/// assert!(list == other);
/// ```
impl<T: PartialEq, const CAP: usize> PartialEq for ArrayVec<T, CAP> {
    fn eq(&self, other: &Self) -> bool {
        self.as_slice() == other.as_slice()
    }
}

impl<T: Eq, const CAP: usize> Eq for ArrayVec<T, CAP> {}

impl<T: fmt::Debug, const CAP: usize> fmt::Debug for ArrayVec<T, CAP> {
    fn fmt(&self, f: &mut fmt::Formatter<'_>) -> fmt::Result {
        self.as_slice().fmt(f)
    }
}
