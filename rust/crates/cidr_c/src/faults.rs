//! What is wrong with strings.

use crate::printing::print;
use cidr_ext::text_fault;

/// Writes what is wrong with a string that is no network, no address and no range of addresses, and returns its length, at
/// most 73; 0 where none of the faults that are looked for is found, or the string is not UTF-8.
#[inline]
pub fn pcidr_text_fault(text: &[u8], out: &mut [u8]) -> usize {
    let Ok(text) = core::str::from_utf8(text) else {
        return 0;
    };
    match text_fault(text) {
        Some(fault) => print(fault.to_text().as_str(), out),
        None => 0,
    }
}
