//! The calls of C, and why each is sound. There is no other unsafe code, but for `main`.
#![allow(unsafe_code)]

use std::ffi::{c_char, c_int, c_uint, CStr};
use std::fs::File;
use std::io::{Error, ErrorKind, Result};
use std::mem::ManuallyDrop;
use std::os::fd::{FromRawFd, RawFd};

extern "C" {
    fn open(name: *const c_char, flags: c_int, ...) -> c_int;
    fn rename(from: *const c_char, to: *const c_char) -> c_int;
    fn unlink(name: *const c_char) -> c_int;
    fn realpath(name: *const c_char, path: *mut c_char) -> *mut c_char;
    fn statx(folder: c_int, name: *const c_char, flags: c_int, wanted: c_uint, found: *mut Statx) -> c_int;
    fn getentropy(bytes: *mut u8, len: usize) -> c_int;
    fn signal(number: c_int, action: usize) -> usize;
}

/// The flags of `open` that are the same for each processor, and the others of these calls, as Linux has them.
pub const O_WRONLY: c_int = 0o1;
pub const O_CREAT: c_int = 0o100;
pub const O_EXCL: c_int = 0o200;
const O_NOCTTY: c_int = 0o400;
const O_CLOEXEC: c_int = 0o2000000;
const AT_FDCWD: c_int = -100;
pub const AT_SYMLINK_NOFOLLOW: c_int = 0x100;
pub const AT_EMPTY_PATH: c_int = 0x1000;
const STATX_BASIC_STATS: c_uint = 0x7ff;
const ENAMETOOLONG: c_int = 36;
const SIGPIPE: c_int = 13;
const SIG_IGN: usize = 1;

/// The bytes that a name has at most, with the NUL that ends it.
const PATH_MAX: usize = 4096;

/// A name as C takes it.
pub struct Name {
    bytes: [u8; PATH_MAX],
}

impl Name {
    /// The name, or an error where it has a NUL or is too long.
    pub fn new(name: &str) -> Result<Name> {
        if name.as_bytes().contains(&0) {
            return Err(Error::from(ErrorKind::InvalidInput));
        }
        if name.len() >= PATH_MAX {
            return Err(Error::from_raw_os_error(ENAMETOOLONG));
        }
        let mut bytes = [0; PATH_MAX];
        bytes[..name.len()].copy_from_slice(name.as_bytes());
        Ok(Name { bytes })
    }

    fn as_ptr(&self) -> *const c_char {
        self.bytes.as_ptr().cast()
    }
}

/// What C's `statx` tells of a file.
#[repr(C)]
#[derive(Default)]
pub struct Statx {
    mask: u32,
    block: u32,
    attributes: u64,
    links: u32,
    pub uid: u32,
    pub gid: u32,
    pub mode: u16,
    spare: u16,
    pub ino: u64,
    size: u64,
    blocks: u64,
    attributes_mask: u64,
    times: [u64; 8],
    device: [u32; 2],
    pub dev: [u32; 2],
    more: [u64; 14],
}

fn check(status: c_int) -> Result<()> {
    if status < 0 {
        return Err(Error::last_os_error());
    }
    Ok(())
}

/// Opens the file of a name, again where a signal interrupts it.
pub fn open_file(name: &Name, flags: c_int, mode: u32) -> Result<File> {
    loop {
        // SAFETY: a NUL ends the name, and `mode` is the one further argument that `open` reads.
        let file = unsafe { open(name.as_ptr(), flags | O_NOCTTY | O_CLOEXEC, mode) };
        match check(file) {
            // SAFETY: it was opened just now, and nothing else has it.
            Ok(()) => return Ok(unsafe { File::from_raw_fd(file) }),
            Err(error) if error.kind() == ErrorKind::Interrupted => {}
            Err(error) => return Err(error),
        }
    }
}

/// Gives a file another name, in place of what has it.
pub fn rename_file(from: &Name, to: &Name) -> Result<()> {
    // SAFETY: a NUL ends each name.
    check(unsafe { rename(from.as_ptr(), to.as_ptr()) })
}

/// Removes a file.
pub fn remove_file(name: &Name) -> Result<()> {
    // SAFETY: a NUL ends the name.
    check(unsafe { unlink(name.as_ptr()) })
}

/// Calls `read` with the path of a name that has no link in it.
pub fn with_real_path<T>(name: &Name, read: impl FnOnce(&[u8]) -> Result<T>) -> Result<T> {
    let mut path = [0; PATH_MAX];
    // SAFETY: a NUL ends the name, and `path` has the room that `realpath` asks for.
    if unsafe { realpath(name.as_ptr(), path.as_mut_ptr().cast()) }.is_null() {
        return Err(Error::last_os_error());
    }
    let path = CStr::from_bytes_until_nul(&path).map_err(|_| Error::from(ErrorKind::InvalidData))?;
    read(path.to_bytes())
}

/// What the system tells of the file of a name.
pub fn metadata_of(name: &Name, flags: c_int) -> Result<Statx> {
    metadata_at(AT_FDCWD, name, flags)
}

/// What the system tells of an open file, which has an empty name beside `AT_EMPTY_PATH`, or of that of a name.
pub fn metadata_at(folder: RawFd, name: &Name, flags: c_int) -> Result<Statx> {
    let mut found = Statx::default();
    // SAFETY: a NUL ends the name, and `found` has the 256 bytes that `statx` writes.
    check(unsafe { statx(folder, name.as_ptr(), flags, STATX_BASIC_STATS, &mut found) })?;
    Ok(found)
}

const _: () = assert!(size_of::<Statx>() == 256);

/// Fills bytes with random ones. The system gives at most 256 at once.
pub fn fill_random(bytes: &mut [u8]) -> Result<()> {
    for part in bytes.chunks_mut(256) {
        // SAFETY: it writes as many bytes as the part has.
        check(unsafe { getentropy(part.as_mut_ptr(), part.len()) })?;
    }
    Ok(())
}

/// The stream of a number, which is not closed where it is dropped. Where there is none, each call of it is an error.
pub fn stream(number: RawFd) -> ManuallyDrop<File> {
    // SAFETY: the standard streams are the program's own for as long as it runs, and no call here closes them. A number that
    // is closed may become that of a file that is opened later, as in C.
    ManuallyDrop::new(unsafe { File::from_raw_fd(number) })
}

/// The words that C passes to `main`.
#[derive(Clone, Copy)]
pub struct Words {
    count: usize,
    words: *const *const c_char,
}

impl Words {
    /// Takes what C passes to `main`, and has a write that nobody reads return an error in place of ending the program.
    ///
    /// # Safety
    ///
    /// `words` are `count` pointers to bytes that a NUL ends, and stay so.
    pub unsafe fn new(count: c_int, words: *const *const c_char) -> Words {
        // SAFETY: no function is called where the signal is ignored.
        unsafe { signal(SIGPIPE, SIG_IGN) };
        Words {
            count: usize::try_from(count).unwrap_or(0),
            words,
        }
    }

    /// The word at an index, if there is one.
    pub fn get(&self, index: usize) -> Option<&[u8]> {
        if index >= self.count {
            return None;
        }
        // SAFETY: it is one of the words, by the condition of `new`.
        Some(unsafe { CStr::from_ptr(*self.words.add(index)) }.to_bytes())
    }
}
