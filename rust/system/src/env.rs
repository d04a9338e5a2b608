//! The arguments of a run.

/// Why an argument is not copied.
#[derive(Clone, Copy, Debug, PartialEq, Eq)]
pub enum FillError {
    /// There are not so many.
    NotPresent,
    /// There is no room for all of it.
    TooLong,
}

/// The arguments, of which the first one, that of index 0, is the program's name.
pub trait Env {
    /// Copies an argument to the start of `buf`, and returns its length in bytes.
    fn arg(&self, index: usize, buf: &mut [u8]) -> Result<usize, FillError>;
}
