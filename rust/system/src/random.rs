//! Random bytes.

use std::io::Result;

/// Has random bytes.
pub trait RandomSource {
    /// Fills all bytes with random ones.
    fn fill_bytes(&self, buf: &mut [u8]) -> Result<()>;
}
