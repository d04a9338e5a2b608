//! Files.

use crate::c::{self, Name, Statx};
use crate::rt::Files;
use cidr_support::alloc::{Alloc, Global};
use cidr_support::string::String;
use std::ffi::c_int;
pub use std::fs::Permissions;
use std::io::{Error, ErrorKind, Read, Result, Write};
use std::os::fd::AsRawFd;

/// An open file, which is closed where it is dropped.
pub struct File(std::fs::File);

impl File {
    /// What the system knows of it.
    pub fn metadata(&self) -> Result<Metadata> {
        c::metadata_at(self.0.as_raw_fd(), &Name::new("")?, c::AT_EMPTY_PATH).map(Metadata)
    }

    /// Sets its rights.
    pub fn set_permissions(&self, permissions: Permissions) -> Result<()> {
        self.0.set_permissions(permissions)
    }

    /// Waits until its bytes are stored.
    pub fn sync_all(&self) -> Result<()> {
        self.0.sync_all()
    }

    pub(crate) fn as_std(&self) -> &std::fs::File {
        &self.0
    }
}

impl Read for File {
    fn read(&mut self, buf: &mut [u8]) -> Result<usize> {
        self.0.read(buf)
    }
}

impl Write for File {
    fn write(&mut self, buf: &[u8]) -> Result<usize> {
        self.0.write(buf)
    }

    fn flush(&mut self) -> Result<()> {
        Ok(())
    }
}

/// An open file of a system.
pub trait OpenFile {
    /// What the system knows of it.
    fn metadata(&self) -> Result<Metadata>;
}

impl OpenFile for File {
    fn metadata(&self) -> Result<Metadata> {
        File::metadata(self)
    }
}

/// What the system knows of a file.
pub struct Metadata(pub(crate) Statx);

impl Metadata {
    fn is_of(&self, kind: u16) -> bool {
        self.0.mode & 0o170000 == kind
    }

    /// Whether it is a folder.
    pub fn is_dir(&self) -> bool {
        self.is_of(0o040000)
    }

    /// Whether it is a regular file.
    pub fn is_file(&self) -> bool {
        self.is_of(0o100000)
    }

    /// Whether it is a link.
    pub fn is_symlink(&self) -> bool {
        self.is_of(0o120000)
    }
}

/// How a file is opened.
pub struct OpenOptions {
    flags: c_int,
    pub(crate) mode: u32,
}

impl OpenOptions {
    /// For reading.
    #[allow(clippy::new_without_default)]
    pub fn new() -> OpenOptions {
        OpenOptions { flags: 0, mode: 0o666 }
    }

    fn set(&mut self, flags: c_int, is_set: bool) -> &mut OpenOptions {
        self.flags = if is_set { self.flags | flags } else { self.flags & !flags };
        self
    }

    /// For writing.
    pub fn write(&mut self, write: bool) -> &mut OpenOptions {
        self.set(c::O_WRONLY, write)
    }

    /// A new file; that there is one is an error.
    pub fn create_new(&mut self, create_new: bool) -> &mut OpenOptions {
        self.set(c::O_CREAT | c::O_EXCL, create_new)
    }

    /// Opens the file of a name.
    pub fn open<R: Files>(&self, files: &R, name: &str) -> Result<R::File> {
        files.open_file(self, name)
    }

    pub(crate) fn open_named(&self, name: &str) -> Result<File> {
        c::open_file(&Name::new(name)?, self.flags, self.mode).map(File)
    }
}

/// Opens a file for reading.
pub fn open<R: Files>(files: &R, name: &str) -> Result<R::File> {
    OpenOptions::new().open(files, name)
}

/// What the system knows of the file of a name, behind links.
pub fn metadata<R: Files>(_files: &R, name: &str) -> Result<Metadata> {
    c::metadata_of(&Name::new(name)?, 0).map(Metadata)
}

/// What the system knows of the file of a name, or of a link that has it.
pub fn symlink_metadata<R: Files>(_files: &R, name: &str) -> Result<Metadata> {
    c::metadata_of(&Name::new(name)?, c::AT_SYMLINK_NOFOLLOW).map(Metadata)
}

/// A name as a string.
pub struct Path(String);

impl Path {
    /// The name.
    pub fn as_path(&self) -> &Path {
        self
    }

    /// The string.
    pub fn as_str(&self) -> &str {
        self.0.as_str()
    }
}

/// The path of a name that has no link in it. That it is not UTF-8 is an error, and so is that there is no memory for it.
pub fn canonicalize<R: Files + Alloc>(_files: &R, name: &str) -> Result<Path> {
    c::with_real_path(&Name::new(name)?, |path| {
        let path = std::str::from_utf8(path).map_err(|_| Error::from(ErrorKind::InvalidData))?;
        String::from_str(Global, path).map(Path).map_err(|_| Error::from(ErrorKind::OutOfMemory))
    })
}

/// Gives a file another name, in place of what has it.
pub fn rename<R: Files>(_files: &R, from: &str, to: &str) -> Result<()> {
    c::rename_file(&Name::new(from)?, &Name::new(to)?)
}

/// Removes a file.
pub fn remove_file<R: Files>(_files: &R, name: &str) -> Result<()> {
    c::remove_file(&Name::new(name)?)
}
