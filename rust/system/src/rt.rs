//! The system that a program runs on.

use crate::c::{self, Words};
use crate::env::{Env, FillError};
use crate::fs::{File, OpenFile, OpenOptions};
use crate::io::{Eprint, Input, Stream};
use crate::random::RandomSource;
use cidr_support::alloc::{Alloc, Global};
use std::ffi::{c_char, c_int};
use std::fmt::Display;
use std::io::{Read, Result, Write};
use std::time::{Duration, Instant};

/// Has files.
pub trait Files {
    /// An open file.
    type File: Read + Write + OpenFile;

    /// Opens the file of a name.
    fn open_file(&self, how: &OpenOptions, name: &str) -> Result<Self::File>;
}

/// Has a clock.
pub trait Clock {
    /// The time since some moment, which never goes back.
    fn monotonic(&self) -> Result<Duration>;
}

/// The system, as it starts a program in C.
pub struct HostRuntime {
    words: Words,
    start: Instant,
}

impl HostRuntime {
    /// The system as it is.
    ///
    /// # Safety
    ///
    /// These are what C passes to `main`.
    #[allow(unsafe_code)]
    pub unsafe fn new(count: c_int, words: *const *const c_char) -> HostRuntime {
        HostRuntime {
            // SAFETY: as here.
            words: unsafe { Words::new(count, words) },
            start: Instant::now(),
        }
    }

    /// The standard output.
    pub fn stdout(&self) -> Stream {
        Stream::of(1)
    }

    /// The standard error.
    pub fn stderr(&self) -> Stream {
        Stream::of(2)
    }

    /// Where memory comes from.
    pub fn alloc(&self) -> Global {
        Global
    }
}

impl Alloc for HostRuntime {
    fn alloc(&self) -> Global {
        Global
    }
}

impl Env for HostRuntime {
    fn arg(&self, index: usize, buf: &mut [u8]) -> std::result::Result<usize, FillError> {
        let argument = self.words.get(index).ok_or(FillError::NotPresent)?;
        let room = buf.get_mut(..argument.len()).ok_or(FillError::TooLong)?;
        room.copy_from_slice(argument);
        Ok(argument.len())
    }
}

impl Files for HostRuntime {
    type File = File;

    fn open_file(&self, how: &OpenOptions, name: &str) -> Result<File> {
        how.open_named(name)
    }
}

impl RandomSource for HostRuntime {
    fn fill_bytes(&self, buf: &mut [u8]) -> Result<()> {
        c::fill_random(buf)
    }
}

impl Input for HostRuntime {
    type Reader = Stream;

    fn reader(&self) -> Stream {
        Stream::of(0)
    }
}

impl Eprint for HostRuntime {
    fn eprint<D: Display>(&self, value: D) -> Result<()> {
        write!(self.stderr(), "{value}")
    }
}

impl Clock for HostRuntime {
    fn monotonic(&self) -> Result<Duration> {
        Ok(self.start.elapsed())
    }
}

/// The `main` of a program that takes the system and returns its status.
#[macro_export]
macro_rules! main {
    ($run:path) => {
        // C starts a program by this name, which no other function has.
        #[allow(unsafe_code)]
        #[no_mangle]
        extern "C" fn main(count: std::ffi::c_int, words: *const *const std::ffi::c_char) -> std::ffi::c_int {
            // SAFETY: C passes them.
            std::ffi::c_int::from($run(unsafe { $crate::rt::HostRuntime::new(count, words) }).0)
        }
    };
}
