//! The files of a run and its standard input.

use crate::errors::Reason;
use crate::input::begun::FileContent;
use crate::input::keeping::Said;
use crate::output::terminal::{Progress, Watched};
use cidr_io::source::Source;
use cidr_lists::records::ListForm;
use cidr_system::fs::OpenFile;
use cidr_system::io::{Eprint, ErrorKind, Input, Read};
use cidr_system::rt::Clock;
use cidr_system::{fs, io, rt};

/// What a run reads: its files and its standard input.
pub trait Files: Sized {
    type Reader: Source;

    /// Opens the file of this name, or tells why it can't be opened.
    fn open(&self, name: &str) -> Result<Self::Reader, Reason>;
}

/// What lists are read from, and how.
pub trait Sources: Sized {
    type Reader: Source;

    /// Opens the file of this name, or tells why it can't be opened.
    fn open(&self, name: &str) -> Result<Self::Reader, Reason>;

    /// What is done with a set bit after the prefix of a network.
    fn list_form(&self) -> ListForm;

    /// What the lines of the file of this name say, if they are read already and none is in error, or its bytes, if they are
    /// and it begins as a file of look-ups.
    fn kept(&self, name: &str) -> Option<&FileContent<Said>>;
}

/// The files of a run, and how their lists are read.
#[derive(Clone, Copy)]
pub struct ReadBy<'a, F: Files> {
    pub files: &'a F,
    pub list_form: ListForm,
}

impl<F: Files> Sources for ReadBy<'_, F> {
    type Reader = F::Reader;

    #[inline]
    fn open(&self, name: &str) -> Result<F::Reader, Reason> {
        self.files.open(name)
    }

    #[inline]
    fn list_form(&self) -> ListForm {
        self.list_form
    }

    #[inline]
    fn kept(&self, _name: &str) -> Option<&FileContent<Said>> {
        None
    }
}

/// A file or the standard input.
pub enum Opened<F: Read, I: Read> {
    File(F),
    Input(I),
}

impl<F: Read, I: Read> Read for Opened<F, I> {
    #[inline]
    fn read(&mut self, buf: &mut [u8]) -> io::Result<usize> {
        match self {
            Opened::File(file) => file.read(buf),
            Opened::Input(input) => input.read(buf),
        }
    }
}

/// Why the system did not open a file.
#[inline]
fn reason_of(kind: ErrorKind) -> Reason {
    match kind {
        ErrorKind::NotFound => Reason::NotFound,
        ErrorKind::PermissionDenied => Reason::Denied,
        _ => Reason::Unknown,
    }
}

/// Whether a file is a directory, as far as the system tells it.
#[inline]
fn is_directory<F: OpenFile>(file: &F) -> bool {
    match file.metadata() {
        Ok(metadata) => metadata.is_dir(),
        Err(_) => false,
    }
}

/// Opens a file of the system that is no directory.
fn open_file<R: rt::Files>(runtime: &R, name: &str) -> Result<R::File, Reason> {
    match fs::open(runtime, name) {
        Ok(file) => {
            if is_directory(&file) {
                return Err(Reason::Directory);
            }
            Ok(file)
        }
        Err(e) => Err(reason_of(e.kind())),
    }
}

/// The files of the system and its standard input, which nothing is told of, and how far reading them is.
#[derive(Clone, Copy)]
pub struct System<'a, R: rt::Files + Input + Clock + Eprint> {
    pub runtime: &'a R,
    pub progress: &'a Progress<'a, R>,
}

impl<'a, R: rt::Files + Input + Clock + Eprint> Files for System<'a, R> {
    type Reader = Watched<'a, Opened<R::File, R::Reader>, R>;

    fn open(&self, name: &str) -> Result<Self::Reader, Reason> {
        let source = if name == "-" {
            Opened::Input(self.runtime.reader())
        } else {
            Opened::File(open_file(self.runtime, name)?)
        };
        Ok(Watched {
            source,
            progress: self.progress,
        })
    }
}
