//! Where files are written.

use crate::errors::Unsaved;
use cidr_support::arrayvec::ArrayString;
use cidr_support::alloc::Alloc;
use cidr_system::fs::{File, Metadata, OpenOptions, Permissions};
use cidr_system::io::{ErrorKind, Write};
use cidr_system::os::unix::fs::{MetadataExt, OpenOptionsExt, PermissionsExt, fchown};
use cidr_system::random::RandomSource;
use cidr_system::{fs, io, rt};

/// Where a run writes files, each whole or not at all.
pub trait Folder: Sized {
    /// Writes a file of this name, in place of the one that has it, but not of the file that was read, if its name is given. An
    /// error is remembered.
    fn replace(&mut self, name: &str, read: Option<&str>, bytes: &[u8]) -> Result<(), Unsaved>;
}

/// A folder in which nothing is written.
pub struct Sealed;

impl Folder for Sealed {
    #[inline]
    fn replace(&mut self, _name: &str, _read: Option<&str>, _bytes: &[u8]) -> Result<(), Unsaved> {
        Err(Unsaved::Denied)
    }
}

/// How many bytes the name of a file has at most.
const LONGEST: usize = 4096;

/// The files of the system, which nothing is told of. A file is written under another name in the folder of the one that it
/// replaces, with the rights of that one as far as it may have them, and renamed. Where the name is a link, what the system
/// finds behind it is replaced. That has to be a file: no folder and no device. Of the name `-`, which is that of the standard
/// input elsewhere, no file is written.
pub struct Beside<'a, R: rt::Files> {
    pub runtime: &'a R,
    /// Why a file was not written, if one was not.
    pub refused: Option<Unsaved>,
}

impl<R: rt::Files<File = File> + RandomSource + Alloc> Folder for Beside<'_, R> {
    #[inline]
    fn replace(&mut self, name: &str, read: Option<&str>, bytes: &[u8]) -> Result<(), Unsaved> {
        match replace_named(self.runtime, name, read, bytes) {
            Ok(()) => Ok(()),
            Err(why) => {
                self.refused = Some(why);
                Err(why)
            }
        }
    }
}

/// Why the system did not write a file.
fn why(kind: ErrorKind) -> Unsaved {
    match kind {
        ErrorKind::StorageFull | ErrorKind::QuotaExceeded => Unsaved::Full,
        ErrorKind::PermissionDenied => Unsaved::Denied,
        ErrorKind::ReadOnlyFilesystem => Unsaved::ReadOnly,
        ErrorKind::NotFound | ErrorKind::NotADirectory => Unsaved::NoDirectory,
        ErrorKind::IsADirectory => Unsaved::Directory,
        _ => Unsaved::Unknown,
    }
}

/// What the system says of a file, or that there is none.
#[inline]
fn found(said: io::Result<Metadata>) -> Result<Option<Metadata>, Unsaved> {
    match said {
        Ok(there) => Ok(Some(there)),
        Err(e) => match e.kind() {
            ErrorKind::NotFound => Ok(None),
            kind => Err(why(kind)),
        },
    }
}

/// Whether two files are one.
#[inline]
fn are_one(one: &Metadata, other: &Metadata) -> bool {
    one.dev() == other.dev() && one.ino() == other.ino()
}

/// Whether a file is the one that was read, by the name of that.
#[inline]
fn was_read<R: rt::Files>(files: &R, there: &Metadata, read: &str) -> Result<bool, Unsaved> {
    let path = if read == "-" { "/dev/stdin" } else { read };
    match found(fs::metadata(files, path))? {
        Some(source) => Ok(are_one(there, &source)),
        None => Ok(false),
    }
}

/// Says why a file can't be replaced: it is none, or it is the one that was read.
fn check_old<R: rt::Files>(files: &R, there: &Metadata, read: Option<&str>) -> Result<(), Unsaved> {
    if there.is_dir() {
        return Err(Unsaved::Directory);
    }
    if !there.is_file() {
        return Err(Unsaved::Unknown);
    }
    if let Some(read) = read {
        if was_read(files, there, read)? {
            return Err(Unsaved::Same);
        }
    }
    Ok(())
}

/// Writes a file of this name, or what the system finds behind it where it is a link, in place of the one that is there.
fn replace_named<R: rt::Files<File = File> + RandomSource + Alloc>(
    files: &R,
    name: &str,
    read: Option<&str>,
    bytes: &[u8],
) -> Result<(), Unsaved> {
    if name == "-" || name.is_empty() {
        return Err(Unsaved::Unknown);
    }
    match found(fs::symlink_metadata(files, name))? {
        None => write_beside(files, name, None, bytes),
        Some(there) if there.is_symlink() => replace_linked(files, name, read, bytes),
        Some(there) => {
            check_old(files, &there, read)?;
            write_beside(files, name, Some(&there), bytes)
        }
    }
}

/// Writes in place of the file that the system finds behind a link. It decides whether the link may be followed; the path
/// that is found by reading links has to lead to the same file.
fn replace_linked<R: rt::Files<File = File> + RandomSource + Alloc>(
    files: &R,
    name: &str,
    read: Option<&str>,
    bytes: &[u8],
) -> Result<(), Unsaved> {
    let Some(there) = found(fs::metadata(files, name))? else {
        return Err(Unsaved::Unknown);
    };
    check_old(files, &there, read)?;
    let path = match fs::canonicalize(files, name) {
        Ok(path) => path,
        Err(e) => return Err(why(e.kind())),
    };
    let path = path.as_path().as_str();
    match found(fs::symlink_metadata(files, path))? {
        Some(last) if are_one(&last, &there) => write_beside(files, path, Some(&there), bytes),
        _ => Err(Unsaved::Unknown),
    }
}

/// A name in the folder of another that nobody can guess, if there is one that is not too long.
fn name_beside<R: RandomSource>(source: &R, name: &str) -> Option<ArrayString<LONGEST>> {
    let mut beside = ArrayString::new();
    if let Some((folder, _)) = name.rsplit_once('/') {
        beside.try_push_str(folder).ok()?;
        beside.try_push('/').ok()?;
    }
    beside.try_push_str(".netset-").ok()?;
    let mut random = [0u8; 16];
    source.fill_bytes(&mut random).ok()?;
    for byte in random.iter() {
        beside.try_push(char::from(b'a' + byte % 16)).ok()?;
    }
    Some(beside)
}

/// Writes a file of this name, which is no link, in place of the one that has it, if there is one.
fn write_beside<R: rt::Files<File = File> + RandomSource>(
    files: &R,
    name: &str,
    old: Option<&Metadata>,
    bytes: &[u8],
) -> Result<(), Unsaved> {
    let Some(beside) = name_beside(files, name) else {
        return Err(Unsaved::Unknown);
    };
    let beside = beside.as_str();
    let mut options = OpenOptions::new();
    options.write(true).create_new(true);
    if old.is_some() {
        options.mode(0o600);
    }
    let file = match options.open(files, beside) {
        Ok(file) => file,
        Err(e) => return Err(why(e.kind())),
    };
    if let Err(e) = fill(file, old, bytes) {
        let _ = fs::remove_file(files, beside);
        return Err(why(e.kind()));
    }
    if let Err(e) = fs::rename(files, beside, name) {
        let _ = fs::remove_file(files, beside);
        return Err(why(e.kind()));
    }
    Ok(())
}

/// Writes all bytes to a new file, gives it the rights of the one that it replaces, if there is one, and waits until all is
/// stored.
#[inline]
fn fill(mut file: File, old: Option<&Metadata>, bytes: &[u8]) -> io::Result<()> {
    file.write_all(bytes)?;
    if let Some(old) = old {
        take_rights(&file, old)?;
    }
    file.sync_all()
}

/// Gives a file the owner and the group of another, or else the group, as far as the system lets it, and the rights that go
/// with those that it has then.
#[inline]
fn take_rights(file: &File, old: &Metadata) -> io::Result<()> {
    if fchown(file, Some(old.uid()), Some(old.gid())).is_err() {
        let _ = fchown(file, None, Some(old.gid()));
    }
    let new = file.metadata()?;
    let mode = rights(old.mode(), new.uid() == old.uid(), new.gid() == old.gid());
    file.set_permissions(Permissions::from_mode(mode))
}

/// The rights of a file in place of one that had these, by whether it has its owner and its group: all of them if it has both.
/// Else nothing is run as owner or group; and where the group is another, it and all others have what both had before.
fn rights(old: u32, owner: bool, group: bool) -> u32 {
    if owner && group {
        return old & 0o7777;
    }
    if group {
        return old & 0o777;
    }
    let both = old & (old >> 3) & 7;
    (old & 0o700) | (both << 3) | both
}
