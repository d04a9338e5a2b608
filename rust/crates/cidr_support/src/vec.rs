//! A list whose calls return an error where memory runs out. It is the `Vec` of `alloc` inside.

use crate::alloc::{AllocError, AllocFailed, Global};
use core::fmt;
use core::hint::black_box;
use core::iter::FusedIterator;
use core::marker::PhantomData;
use core::ops::{Deref, DerefMut};
use rust_alloc::vec;

/// A list of items.
#[derive(PartialEq, Eq, PartialOrd, Ord, Hash)]
pub struct Vec<T>(vec::Vec<T>);

impl<T> Vec<T> {
    /// The empty list. It allocates nothing.
    ///
    /// ```
    /// # use cidr_support::{alloc::*, vec::Vec};
    /// assert!(Vec::<u8>::new(Global).is_empty());
    /// # Ok::<(), AllocError>(())
    /// ```
    pub fn new(_: Global) -> Vec<T> {
        Vec(vec::Vec::new())
    }

    /// The empty list with room for `capacity` items.
    ///
    /// ```
    /// # use cidr_support::{alloc::*, vec::Vec};
    /// assert!(Vec::<u8>::with_capacity(Global, 3)?.capacity() >= 3);
    /// assert!(Vec::<u8>::with_capacity(Global, usize::MAX).is_err());
    /// # Ok::<(), AllocError>(())
    /// ```
    ///
    /// # Errors
    ///
    /// `AllocError` where memory runs out.
    pub fn with_capacity(alloc: Global, capacity: usize) -> Result<Vec<T>, AllocError> {
        let mut list = Vec::new(alloc);
        list.0.try_reserve_exact(capacity).map_err(|_| AllocError)?;
        Ok(list)
    }

    /// A copy of some items.
    ///
    /// ```
    /// # use cidr_support::{alloc::*, vec::Vec};
    /// assert_eq!(Vec::from_slice(Global, &[3, 1, 2])?.as_slice(), [3, 1, 2]);
    /// # Ok::<(), AllocError>(())
    /// ```
    ///
    /// # Errors
    ///
    /// `AllocError` where memory runs out.
    pub fn from_slice(alloc: Global, items: &[T]) -> Result<Vec<T>, AllocError>
    where
        T: Copy,
    {
        let mut list = Vec::with_capacity(alloc, items.len())?;
        list.0.extend_from_slice(items);
        Ok(list)
    }

    /// Items by value.
    ///
    /// ```
    /// # use cidr_support::{alloc::*, vec::Vec};
    /// assert_eq!(Vec::from_array(Global, [3, 1, 2])?.as_slice(), [3, 1, 2]);
    /// # Ok::<(), AllocError>(())
    /// ```
    ///
    /// # Errors
    ///
    /// `AllocError` where memory runs out.
    pub fn from_array<const N: usize>(alloc: Global, items: [T; N]) -> Result<Vec<T>, AllocError> {
        let mut list = Vec::with_capacity(alloc, N)?;
        list.0.extend(items);
        Ok(list)
    }

    /// `len` copies of an item.
    ///
    /// ```
    /// # use cidr_support::{alloc::*, vec::Vec};
    /// assert_eq!(Vec::from_elem(Global, 7, 3)?.as_slice(), [7, 7, 7]);
    /// # Ok::<(), AllocError>(())
    /// ```
    ///
    /// # Errors
    ///
    /// `AllocError` where memory runs out.
    pub fn from_elem(alloc: Global, item: T, len: usize) -> Result<Vec<T>, AllocError>
    where
        T: Clone,
    {
        let mut list = Vec::with_capacity(alloc, len)?;
        list.0.resize(len, item);
        Ok(list)
    }

    /// Where its memory comes from.
    ///
    /// ```
    /// # use cidr_support::{alloc::*, vec::Vec};
    /// let list = Vec::from_array(Global, [3, 1, 2])?;
    /// let other = Vec::<u8>::new(*list.allocator());
    /// # Ok::<(), AllocError>(())
    /// ```
    pub fn allocator(&self) -> &Global {
        &Global
    }

    /// How many items there is room for.
    ///
    /// ```
    /// # use cidr_support::{alloc::*, vec::Vec};
    /// assert!(Vec::from_array(Global, [3, 1, 2])?.capacity() >= 3);
    /// # Ok::<(), AllocError>(())
    /// ```
    pub fn capacity(&self) -> usize {
        self.0.capacity()
    }

    /// Makes room for `additional` more items.
    ///
    /// ```
    /// # use cidr_support::{alloc::*, vec::Vec};
    /// let mut list = Vec::from_array(Global, [3, 1, 2])?;
    /// list.reserve(5)?;
    /// assert!(list.capacity() >= 8 && list.reserve(usize::MAX).is_err());
    /// # Ok::<(), AllocError>(())
    /// ```
    ///
    /// # Errors
    ///
    /// `AllocError` where memory runs out.
    pub fn reserve(&mut self, additional: usize) -> Result<(), AllocError> {
        self.0.try_reserve(additional).map_err(|_| AllocError)
    }

    /// Appends an item, or gives it back where there is no memory.
    ///
    /// ```
    /// # use cidr_support::{alloc::*, vec::Vec};
    /// let mut list = Vec::from_array(Global, [3, 1, 2])?;
    /// list.push(0)?;
    /// assert_eq!(list.as_slice(), [3, 1, 2, 0]);
    /// # Ok::<(), AllocError>(())
    /// ```
    ///
    /// # Errors
    ///
    /// `AllocFailed`, which holds the item, where memory runs out.
    #[inline]
    pub fn push(&mut self, item: T) -> Result<(), AllocFailed<T>> {
        if self.0.len() == self.0.capacity() && self.0.try_reserve(1).is_err() {
            return Err(AllocFailed { value: item });
        }
        self.0.push(item);
        Ok(())
    }

    /// Appends an item, for which there is room.
    ///
    /// ```
    /// # use cidr_support::{alloc::*, vec::Vec};
    /// let mut list = Vec::with_capacity(Global, 2)?;
    /// list.push_reserved(7);
    /// list.push_reserved(8);
    /// assert_eq!(list.as_slice(), [7, 8]);
    /// # Ok::<(), AllocError>(())
    /// ```
    #[inline]
    pub fn push_reserved(&mut self, item: T) {
        self.0.push(item);
    }

    /// Appends a copy of some items.
    ///
    /// ```
    /// # use cidr_support::{alloc::*, vec::Vec};
    /// let mut list = Vec::from_array(Global, [3, 1, 2])?;
    /// list.extend_from_slice(&[5, 4])?;
    /// assert_eq!(list.as_slice(), [3, 1, 2, 5, 4]);
    /// # Ok::<(), AllocError>(())
    /// ```
    ///
    /// # Errors
    ///
    /// `AllocError` where memory runs out.
    pub fn extend_from_slice(&mut self, items: &[T]) -> Result<(), AllocError>
    where
        T: Copy,
    {
        self.reserve(items.len())?;
        self.0.extend_from_slice(items);
        Ok(())
    }

    /// Inserts an item before that at `index`, or gives it back where there is no memory.
    ///
    /// ```
    /// # use cidr_support::{alloc::*, vec::Vec};
    /// let mut list = Vec::from_array(Global, [3, 1, 2])?;
    /// list.insert(1, 9)?;
    /// assert_eq!(list.as_slice(), [3, 9, 1, 2]);
    /// # Ok::<(), AllocError>(())
    /// ```
    ///
    /// # Errors
    ///
    /// `AllocFailed`, which holds the item, where memory runs out.
    ///
    /// # Panics
    ///
    /// Where `index` is above the length.
    pub fn insert(&mut self, index: usize, item: T) -> Result<(), AllocFailed<T>> {
        if self.0.len() == self.0.capacity() && self.0.try_reserve(1).is_err() {
            return Err(AllocFailed { value: item });
        }
        self.0.insert(index, item);
        Ok(())
    }

    /// Removes the item at `index`.
    ///
    /// ```
    /// # use cidr_support::{alloc::*, vec::Vec};
    /// let mut list = Vec::from_array(Global, [3, 1, 2, 4])?;
    /// assert_eq!(list.remove(1), 1);
    /// assert_eq!(list.as_slice(), [3, 2, 4]);
    /// # Ok::<(), AllocError>(())
    /// ```
    ///
    /// # Panics
    ///
    /// Where `index` is not below the length.
    pub fn remove(&mut self, index: usize) -> T {
        self.0.remove(index)
    }

    /// Leaves the first `len` items. A shorter list stays as it is.
    ///
    /// ```
    /// # use cidr_support::{alloc::*, vec::Vec};
    /// let mut list = Vec::from_array(Global, [3, 1, 2])?;
    /// list.truncate(2);
    /// list.truncate(9);
    /// assert_eq!(list.as_slice(), [3, 1]);
    /// # Ok::<(), AllocError>(())
    /// ```
    pub fn truncate(&mut self, len: usize) {
        self.0.truncate(len);
    }

    /// A copy of the list.
    ///
    /// ```
    /// # use cidr_support::{alloc::*, vec::Vec};
    /// let list = Vec::from_array(Global, [3, 1])?;
    /// assert_eq!(list.try_clone()?, list);
    /// # Ok::<(), AllocError>(())
    /// ```
    ///
    /// # Errors
    ///
    /// `AllocError` where memory runs out.
    pub fn try_clone(&self) -> Result<Vec<T>, AllocError>
    where
        T: Clone,
    {
        let mut list = Vec::with_capacity(Global, self.0.len())?;
        list.0.extend_from_slice(&self.0);
        Ok(list)
    }

    /// Leaves `len` items: the first ones, and behind these copies of `item`.
    ///
    /// ```
    /// # use cidr_support::{alloc::*, vec::Vec};
    /// let mut list = Vec::from_array(Global, [3, 1])?;
    /// list.resize(3, 9)?;
    /// assert_eq!(list.as_slice(), [3, 1, 9]);
    /// # Ok::<(), AllocError>(())
    /// ```
    ///
    /// # Errors
    ///
    /// `AllocError` where memory runs out.
    pub fn resize(&mut self, len: usize, item: T) -> Result<(), AllocError>
    where
        T: Clone,
    {
        self.reserve(len.saturating_sub(self.0.len()))?;
        self.0.resize(len, item);
        Ok(())
    }

    /// Gives back memory that no item is in, if the system has as much as the items take besides.
    ///
    /// ```
    /// # use cidr_support::{alloc::*, vec::Vec};
    /// let mut list = Vec::with_capacity(Global, 9)?;
    /// list.push(7)?;
    /// list.shrink_to_fit();
    /// assert!(list.as_slice() == [7] && list.capacity() < 9);
    /// # Ok::<(), AllocError>(())
    /// ```
    pub fn shrink_to_fit(&mut self) {
        // where the system refuses to shrink a list in its place, `std` ends the program
        let mut list = vec::Vec::new();
        if self.0.len() < self.0.capacity() && list.try_reserve_exact(self.0.len()).is_ok() {
            list.append(&mut self.0);
            self.0 = list;
        }
    }

    /// Removes the last item.
    ///
    /// ```
    /// # use cidr_support::{alloc::*, vec::Vec};
    /// assert_eq!(Vec::from_array(Global, [3, 1, 2])?.pop(), Some(2));
    /// # Ok::<(), AllocError>(())
    /// ```
    pub fn pop(&mut self) -> Option<T> {
        self.0.pop()
    }

    /// Sorts the items by a key, and leaves those of equal keys in their order. Where there is no room for as many items, it
    /// is an error, and they stay as they were.
    ///
    /// ```
    /// # use cidr_support::{alloc::*, vec::Vec};
    /// let mut list = Vec::from_array(Global, [(3, 1), (1, 2), (3, 0)])?;
    /// list.sort_by_key(|item| item.0)?;
    /// assert_eq!(list.as_slice(), [(1, 2), (3, 1), (3, 0)]);
    /// let mut long = Vec::from((0..200).map(|n| (n % 3, n)).collect::<std::vec::Vec<_>>());
    /// long.sort_by_key(|item| item.0)?;
    /// assert!(long.is_sorted());
    /// # Ok::<(), AllocError>(())
    /// ```
    ///
    /// # Errors
    ///
    /// `AllocError` where memory runs out.
    pub fn sort_by_key<K: Ord>(&mut self, key: impl FnMut(&T) -> K) -> Result<(), AllocError> {
        drop(black_box(Vec::<T>::with_capacity(Global, self.0.len())?));
        self.0.sort_by_key(key);
        Ok(())
    }

    /// Removes all items.
    ///
    /// ```
    /// # use cidr_support::{alloc::*, vec::Vec};
    /// let mut list = Vec::from_array(Global, [3, 1, 2])?;
    /// list.clear();
    /// assert!(list.is_empty());
    /// # Ok::<(), AllocError>(())
    /// ```
    pub fn clear(&mut self) {
        self.0.clear();
    }

    /// Leaves the items for which `keep` returns true.
    ///
    /// ```
    /// # use cidr_support::{alloc::*, vec::Vec};
    /// let mut list = Vec::from_array(Global, [3, 1, 2])?;
    /// list.retain(|item| *item != 1);
    /// assert_eq!(list.as_slice(), [3, 2]);
    /// # Ok::<(), AllocError>(())
    /// ```
    pub fn retain(&mut self, keep: impl FnMut(&T) -> bool) {
        self.0.retain(keep);
    }

    /// Leaves one of equal items that follow each other.
    ///
    /// ```
    /// # use cidr_support::{alloc::*, vec::Vec};
    /// let mut list = Vec::from_array(Global, [1, 1, 2, 1])?;
    /// list.dedup();
    /// assert_eq!(list.as_slice(), [1, 2, 1]);
    /// # Ok::<(), AllocError>(())
    /// ```
    pub fn dedup(&mut self)
    where
        T: PartialEq,
    {
        self.0.dedup();
    }

    /// Leaves the first of items that follow each other and are the same by `same`.
    ///
    /// ```
    /// # use cidr_support::{alloc::*, vec::Vec};
    /// let mut list = Vec::from_array(Global, [10, 11, 20, 19])?;
    /// list.dedup_by(|item, before| *item == *before + 1);
    /// assert_eq!(list.as_slice(), [10, 20, 19]);
    /// # Ok::<(), AllocError>(())
    /// ```
    pub fn dedup_by(&mut self, same: impl FnMut(&mut T, &mut T) -> bool) {
        self.0.dedup_by(same);
    }

    /// The items.
    ///
    /// ```
    /// # use cidr_support::{alloc::*, vec::Vec};
    /// assert_eq!(Vec::from_array(Global, [3, 1, 2])?.as_slice(), [3, 1, 2]);
    /// # Ok::<(), AllocError>(())
    /// ```
    pub fn as_slice(&self) -> &[T] {
        &self.0
    }

    /// The items, for writing.
    ///
    /// ```
    /// # use cidr_support::{alloc::*, vec::Vec};
    /// let mut list = Vec::from_array(Global, [3, 1, 2])?;
    /// list.as_mut_slice()[0] = 4;
    /// assert_eq!(list.as_slice(), [4, 1, 2]);
    /// # Ok::<(), AllocError>(())
    /// ```
    pub fn as_mut_slice(&mut self) -> &mut [T] {
        &mut self.0
    }
}

impl<T> Deref for Vec<T> {
    type Target = [T];

    #[inline]
    fn deref(&self) -> &[T] {
        &self.0
    }
}

impl<T> DerefMut for Vec<T> {
    #[inline]
    fn deref_mut(&mut self) -> &mut [T] {
        &mut self.0
    }
}

/// ```
/// # use cidr_support::{alloc::*, vec::Vec};
/// assert_eq!(format!("{:?}", Vec::from_array(Global, [3, 1, 2])?), "[3, 1, 2]");
/// # Ok::<(), AllocError>(())
/// ```
impl<T: fmt::Debug> fmt::Debug for Vec<T> {
    fn fmt(&self, f: &mut fmt::Formatter<'_>) -> fmt::Result {
        self.0.fmt(f)
    }
}

/// ```
/// # use cidr_support::vec::Vec;
/// let items: std::vec::Vec<u8> = Vec::from(vec![3, 1, 2]).into();
/// assert_eq!(items, [3, 1, 2]);
/// ```
impl<T> From<vec::Vec<T>> for Vec<T> {
    fn from(items: vec::Vec<T>) -> Vec<T> {
        Vec(items)
    }
}

impl<T> From<Vec<T>> for vec::Vec<T> {
    fn from(list: Vec<T>) -> vec::Vec<T> {
        list.0
    }
}

impl<'a, T> IntoIterator for &'a Vec<T> {
    type Item = &'a T;
    type IntoIter = core::slice::Iter<'a, T>;

    fn into_iter(self) -> core::slice::Iter<'a, T> {
        self.0.iter()
    }
}

impl<T> IntoIterator for Vec<T> {
    type Item = T;
    type IntoIter = IntoIter<T, Global>;

    fn into_iter(self) -> IntoIter<T, Global> {
        IntoIter(self.0.into_iter(), PhantomData)
    }
}

/// The items of a list by value, from both ends.
///
/// ```
/// # use cidr_support::{alloc::*, vec::Vec};
/// let list = Vec::from_array(Global, [3, 1, 2])?;
/// assert!((&list).into_iter().eq(&[3, 1, 2]));
/// let mut items = list.into_iter();
/// assert_eq!((items.len(), items.next(), items.next_back(), items.len()), (3, Some(3), Some(2), 1));
/// # Ok::<(), AllocError>(())
/// ```
pub struct IntoIter<T, A>(vec::IntoIter<T>, PhantomData<A>);

impl<T, A> Iterator for IntoIter<T, A> {
    type Item = T;

    fn next(&mut self) -> Option<T> {
        self.0.next()
    }

    fn size_hint(&self) -> (usize, Option<usize>) {
        self.0.size_hint()
    }
}

impl<T, A> DoubleEndedIterator for IntoIter<T, A> {
    fn next_back(&mut self) -> Option<T> {
        self.0.next_back()
    }
}

impl<T, A> ExactSizeIterator for IntoIter<T, A> {}

impl<T, A> FusedIterator for IntoIter<T, A> {}

/// `collect` into a list of an allocator.
pub trait CollectIn: Iterator + Sized {
    /// The items.
    ///
    /// ```
    /// # use cidr_support::{alloc::*, vec::{CollectIn, Vec}};
    /// let list: Result<Vec<u8>, AllocError> = [3, 1].into_iter().collect_in(Global);
    /// assert_eq!(list?.as_slice(), [3, 1]);
    /// # Ok::<(), AllocError>(())
    /// ```
    ///
    /// # Errors
    ///
    /// `AllocError` where memory runs out.
    fn collect_in(self, alloc: Global) -> Result<Vec<Self::Item>, AllocError> {
        let mut list = Vec::with_capacity(alloc, self.size_hint().0)?;
        for item in self {
            list.push(item)?;
        }
        Ok(list)
    }
}

impl<I: Iterator> CollectIn for I {}

/// What writes to a list of bytes appends them. Where there is no memory, it is an error, and the list stays as it was.
#[cfg(feature = "std")]
impl std::io::Write for Vec<u8> {
    fn write(&mut self, bytes: &[u8]) -> std::io::Result<usize> {
        match self.extend_from_slice(bytes) {
            Ok(()) => Ok(bytes.len()),
            Err(AllocError) => Err(std::io::ErrorKind::OutOfMemory.into()),
        }
    }

    fn flush(&mut self) -> std::io::Result<()> {
        Ok(())
    }
}

/// `vec!` of an allocator.
#[macro_export]
macro_rules! vec {
    (in $alloc:expr; $item:expr; $len:expr) => {
        $crate::vec::Vec::from_elem($alloc, $item, $len)
    };
    (in $alloc:expr; $($item:expr),* $(,)?) => {
        $crate::vec::Vec::from_array($alloc, [$($item),*])
    };
}
