//! Elements in place of others in a `Vec`, with one move of the rest.

use cidr_support::vec::Vec;
use cidr_support::alloc::AllocError;

/// Takes out the elements from one index up to another. Those behind are moved once.
#[inline]
pub(crate) fn cut<C: Copy>(elements: &mut Vec<C>, from: usize, to: usize) {
    if from < to {
        let count = elements.len();
        elements.copy_within(to..count, from);
        elements.truncate(count - (to - from));
    }
}

/// Puts one element in place of those from one index up to another. Those behind are moved once. Where there are none of
/// these, it may allocate; where the allocation fails, all stays as it was.
#[inline]
pub(crate) fn put<C: Copy>(
    elements: &mut Vec<C>,
    from: usize,
    to: usize,
    new: C,
) -> Result<(), AllocError> {
    if from == to {
        elements.insert(from, new)?;
        return Ok(());
    }
    elements[from] = new;
    cut(elements, from + 1, to);
    Ok(())
}

/// Puts elements in place of those from one index up to another. Those behind are moved once. Where an allocation fails,
/// all stays as it was.
#[inline]
pub(crate) fn replace<C: Copy>(
    elements: &mut Vec<C>,
    from: usize,
    to: usize,
    new: &[C],
) -> Result<(), AllocError> {
    let end = from.checked_add(new.len()).ok_or(AllocError)?;
    move_rest(elements, to, end, new)?;
    overwrite(elements.as_mut_slice(), from, end, new);
    Ok(())
}

/// Moves the elements from an index on, so that they come to stand from `end` on. Before these stands what was there, and
/// then some of `filler`, which the caller writes over.
fn move_rest<C: Copy>(
    elements: &mut Vec<C>,
    to: usize,
    end: usize,
    filler: &[C],
) -> Result<(), AllocError> {
    if to < end {
        let count = elements.len();
        elements.extend_from_slice(&filler[..end - to])?;
        elements.copy_within(to..count, end);
    } else {
        cut(elements, end, to);
    }
    Ok(())
}

/// Writes elements over those from one index up to another.
#[inline]
fn overwrite<C: Copy>(elements: &mut [C], from: usize, end: usize, new: &[C]) {
    elements[from..end].copy_from_slice(new);
}
