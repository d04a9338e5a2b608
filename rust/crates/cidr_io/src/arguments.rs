//! Reading the arguments of a run, without the program's name.

use cidr_support::vec::Vec;
use cidr_support::string::String;
use crate::memory::Memory;
use crate::shown::byte_excerpt;
use cidr_support::arrayvec::ArrayString;
use cidr_support::alloc::AllocError;
use cidr_system::env::{Env, FillError};

/// The bytes of an argument for which there is room at first.
const ROOM: usize = 256;

/// The arguments of a run, without the program's name, which is not read.
pub trait Arguments: Sized {
    /// Copies the argument at this index, from 0 on and without the program's name, to the start of `buf`, and returns
    /// its length in bytes. The errors are `NotPresent` past the last argument, and `TooLong` where `buf` has no room
    /// for all of it. The caller has to ensure that the index is below 2^64 - 1.
    fn copy_to(&self, index: usize, buf: &mut [u8]) -> Result<usize, FillError>;
}

/// The arguments that the system has given, which nothing is told of.
#[derive(Clone, Copy)]
pub struct SystemArguments<'a, R: Env> {
    /// The system.
    pub system: &'a R,
}

impl<R: Env> Arguments for SystemArguments<'_, R> {
    #[inline]
    fn copy_to(&self, index: usize, buf: &mut [u8]) -> Result<usize, FillError> {
        assert!(index < usize::MAX);
        self.system.arg(index + 1, buf)
    }
}

/// Why the arguments can't be read.
#[derive(Debug, PartialEq)]
pub enum ArgumentReadError {
    /// An argument is not UTF-8: its beginning, as `byte_excerpt` shows it.
    NotText(ArrayString<42>),
    /// An allocation for the arguments was refused.
    NoMemory,
}

impl From<AllocError> for ArgumentReadError {
    #[inline]
    fn from(_error: AllocError) -> ArgumentReadError {
        ArgumentReadError::NoMemory
    }
}

/// The bytes of the argument at this index; `None` past the last one.
fn bytes_at<M: Memory, A: Arguments>(
    memory: &mut M,
    arguments: &A,
    index: usize,
) -> Result<Option<Vec<u8>>, AllocError> {
    let mut buf = Vec::new(memory.alloc());
    let mut room = ROOM;
    loop {
        buf.clear();
        memory.reserve(&mut buf, room)?;
        let Ok(()) = buf.resize(room, 0) else {
            unreachable!()
        };
        match arguments.copy_to(index, buf.as_mut_slice()) {
            Ok(n) => {
                buf.truncate(n);
                return Ok(Some(buf));
            }
            Err(FillError::NotPresent) => return Ok(None),
            Err(FillError::TooLong) => room *= 2,
        }
    }
}

/// The arguments as strings, in their order. It reads up to the first error: `NotText` of the first argument that is not
/// UTF-8, and `NoMemory` where an allocation was refused, which `memory` remembers.
pub fn texts_of<M: Memory, A: Arguments>(
    memory: &mut M,
    arguments: &A,
) -> Result<Vec<String>, ArgumentReadError> {
    let mut texts = Vec::new(memory.alloc());
    loop {
        let Some(bytes) = bytes_at(memory, arguments, texts.len())? else {
            return Ok(texts);
        };
        let text = match String::from_utf8(bytes) {
            Ok(text) => text,
            Err(e) => return Err(ArgumentReadError::NotText(byte_excerpt(e.as_bytes()))),
        };
        memory.reserve(&mut texts, 1)?;
        let Ok(()) = texts.push(text) else {
            unreachable!()
        };
    }
}

/// The arguments as a program takes them: a slice of each string. The error is an allocation that was refused, which
/// `memory` remembers.
pub fn borrowed<'a, M: Memory>(
    memory: &mut M,
    texts: &'a [String],
) -> Result<Vec<&'a str>, AllocError> {
    let mut slices = Vec::new(memory.alloc());
    for text in texts {
        memory.reserve(&mut slices, 1)?;
        let Ok(()) = slices.push(text.as_str()) else {
            unreachable!()
        };
    }
    Ok(slices)
}
