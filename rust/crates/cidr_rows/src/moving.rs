//! Rows that move: the first ones of an array that has room for more.

/// Puts a row before the one at an index, of so many: those from there on move by one.
///
/// The array has to have room for one more, and what is behind that stays.
#[inline]
pub fn insert<T: Copy>(rows: &mut [T], count: usize, index: usize, row: T) {
    assert!(index <= count && count < rows.len());
    rows.copy_within(index..count, index + 1);
    rows[index] = row;
}

/// Takes the row at an index out, of so many: those behind it move by one. What is behind all but one stays, the last row too.
#[inline]
pub fn remove<T: Copy>(rows: &mut [T], count: usize, index: usize) {
    assert!(index < count && count <= rows.len());
    rows.copy_within(index + 1..count, index);
}
