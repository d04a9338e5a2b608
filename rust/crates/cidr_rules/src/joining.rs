//! Regions that are joined to fewer.

use cidr_support::vec::Vec;
use crate::fields::FieldValue;
use crate::regions::Region;
use cidr_support::alloc::AllocError;

/// The index of the first region that is one region together with another.
#[inline]
fn first_joining<A: FieldValue>(regions: &[Region<A>], region: &Region<A>) -> Option<usize> {
    regions.iter().position(|one| one.joins(region))
}

/// Appends a region, joined with those that are one region together with it.
pub(crate) fn push_joined<A: FieldValue>(
    regions: &mut Vec<Region<A>>,
    region: &Region<A>,
) -> Result<(), AllocError> {
    let mut whole = *region;
    loop {
        let found = first_joining(regions, &whole);
        match found {
            Some(i) => {
                let part = regions.remove(i);
                whole = part.hull(&whole);
            }
            None => {
                regions.push(whole)?;
                return Ok(());
            }
        }
    }
}
